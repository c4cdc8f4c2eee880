//! Readers and writers that fail. The values that are read and written are cases of `rows_cases`.

use mysql_binlog_rows::my_timestamp_from_binary;
use rows_errors::RowsError;
use rows_values::Decimal;
use std::alloc::Global;
use std::io::{self, Error, ErrorKind, Read, Write};
use wire_buf::WireFault;

/// A reader that fails.
#[derive(Drop)]
struct FailingReader;

impl Read for FailingReader {
    fn read(&mut self, _buf: &mut [u8]) -> io::Result<usize> {
        Err(Error::from(ErrorKind::Other))
    }
}

/// A writer that accepts a number of bytes, and then fails.
#[derive(Drop)]
struct NarrowWriter {
    room: usize,
}

impl Write for NarrowWriter {
    fn write(&mut self, buf: &[u8]) -> io::Result<usize> {
        if self.room == 0 {
            return Err(Error::from(ErrorKind::Other));
        }
        let taken = buf.len().min(self.room);
        self.room -= taken;
        Ok(taken)
    }

    fn flush(&mut self) -> io::Result<()> {
        Ok(())
    }
}

fn writers_that_fail(alloc: Global) -> bool {
    let mut narrow = NarrowWriter { room: 1 };
    let Ok(decimal) = Decimal::from_str(alloc, "0.50") else {
        return false;
    };
    decimal.write_bin(alloc, &mut narrow) == Err(WireFault::Write) && narrow.room == 0
}

/// Whether reading the decimal failed because of the reader.
fn is_unread(decimal: Result<Decimal, RowsError>) -> bool {
    match decimal {
        Ok(_) => false,
        Err(fault) => fault == RowsError::Read,
    }
}

fn readers_that_fail(alloc: Global) -> bool {
    is_unread(Decimal::read_bin(alloc, &mut FailingReader, 4, 0, false))
}

fn reader_that_fails() -> bool {
    my_timestamp_from_binary(&mut FailingReader, 0) == Err(RowsError::Read)
}

#[test]
fn devices(rt: HostRuntime) {
    let alloc = rt.alloc();
    assert!(rt; writers_that_fail(alloc));
    assert!(rt; readers_that_fail(alloc));
    assert!(rt; reader_that_fails());
}
