//! Readers and writers that move few bytes at once, are interrupted, end and fail. Whole streams are cases of `wire_cases`.

use std::alloc::Global;
use std::io::{Error, ErrorKind, Read, Result as IoResult, Write};
use wire_buf::{Watched, WireFault, read_exact, read_more, write_all};
use wire_fields_extra::{ReadMysqlExt, WriteMysqlExt};

/// A device whose steps are given, one for each call: an error, or one byte at most.
#[derive(Drop)]
struct Device<'a> {
    bytes: &'a [u8],
    written: [u8; 8],
    count: usize,
    steps: &'a [Option<ErrorKind>],
}

impl<'a> Device<'a> {
    fn new(bytes: &'a [u8], steps: &'a [Option<ErrorKind>]) -> Device<'a> {
        Device {
            bytes,
            written: [0; 8],
            count: 0,
            steps,
        }
    }

    /// The error of the next step, or None if bytes move.
    fn step(&mut self) -> Option<ErrorKind> {
        let (first, rest) = self.steps.split_first()?;
        self.steps = rest;
        *first
    }
}

impl Read for Device<'_> {
    /// One byte, unless the step is an error.
    fn read(&mut self, buf: &mut [u8]) -> IoResult<usize> {
        if let Some(kind) = self.step() {
            return Err(Error::from(kind));
        }
        let Some((first, rest)) = self.bytes.split_first() else {
            return Ok(0);
        };
        if buf.is_empty() {
            return Ok(0);
        }
        buf[0] = *first;
        self.bytes = rest;
        Ok(1)
    }
}

impl Write for Device<'_> {
    /// One byte, unless the step is an error or there is no room.
    fn write(&mut self, buf: &[u8]) -> IoResult<usize> {
        if let Some(kind) = self.step() {
            return Err(Error::from(kind));
        }
        if buf.is_empty() || self.count >= self.written.len() {
            return Ok(0);
        }
        self.written[self.count] = buf[0];
        self.count += 1;
        Ok(1)
    }

    fn flush(&mut self) -> IoResult<()> {
        Ok(())
    }
}

fn byte_after_byte() -> bool {
    let steps = [None, Some(ErrorKind::Interrupted), None];
    let mut source = Device::new(b"abc", &steps);
    let mut target = Device::new(b"", &steps);
    let mut two = [0; 2];
    read_exact(&mut source, &mut two) == Ok(())
        && two == *b"ab"
        && source.bytes == b"c".as_slice()
        && write_all(&mut target, b"xyz") == Ok(())
        && target.written == *b"xyz\0\0\0\0\0"
}

fn bytes_after_others(alloc: Global) -> bool {
    let steps = [None, Some(ErrorKind::Interrupted), None];
    let mut device = Device::new(b"cde", &steps);
    let mut more = Vec::new(alloc);
    more.push(b'>').is_ok()
        && read_more(&mut device, 2, &mut more) == Ok(())
        && more.as_slice() == b">cd".as_slice()
        && read_more(&mut device, 0, &mut more) == Ok(())
        && device.bytes == b"e".as_slice()
}

fn ends_and_failures(alloc: Global) -> bool {
    let steps = [None, Some(ErrorKind::Other)];
    let mut two = [0; 2];
    let mut more = Vec::new(alloc);
    // no memory holds u64::MAX bytes: the buffer grows with the bytes that arrive
    read_exact(&mut Device::new(b"a", &[]), &mut two) == Err(WireFault::Eof)
        && read_exact(&mut Device::new(b"ab", &steps), &mut two) == Err(WireFault::Read)
        && read_more(&mut Device::new(b"ab", &[]), u64::MAX, &mut more) == Err(WireFault::Eof)
        && more.as_slice() == b"ab".as_slice()
        && read_more(&mut Device::new(b"ab", &steps), 2, &mut more) == Err(WireFault::Read)
}

fn writers_that_fail_or_are_full() -> bool {
    let steps = [None, Some(ErrorKind::Other)];
    let mut failing = Device::new(b"", &steps);
    let mut full = Device::new(b"", &[]);
    write_all(&mut failing, b"xyz") == Err(WireFault::Write)
        && failing.count == 1
        && write_all(&mut full, b"123456789") == Err(WireFault::Write)
        && full.written == *b"12345678"
}

/// Whether a length-encoded string is read as the text.
fn string_read<R: Read>(alloc: Global, reader: &mut R, text: &[u8]) -> Result<bool, WireFault> {
    let read = reader.read_lenenc_str(alloc)?;
    Ok(read.as_slice() == text)
}

fn streams_that_fail(alloc: Global) -> bool {
    let at_third = [None, None, Some(ErrorKind::Other)];
    let at_fourth = [None, None, None, Some(ErrorKind::Other)];
    let mut short = Device::new(b"\x02a", &at_third);
    let mut whole = Device::new(b"\x02ab", &at_fourth);
    string_read(alloc, &mut short, b"a") == Err(WireFault::Read)
        && string_read(alloc, &mut whole, b"ab") == Ok(true)
}

fn numbers_to_a_writer(alloc: Global) -> bool {
    let steps = [None, None, Some(ErrorKind::Other)];
    let mut out: Vec<u8> = Vec::new(alloc);
    let mut narrow = Device::new(b"", &steps);
    out.write_lenenc_int(65_536) == Ok(4)
        && out.write_lenenc_str(b"ab") == Ok(3)
        && out.as_slice() == b"\xfd\x00\x00\x01\x02ab".as_slice()
        && narrow.write_lenenc_str(b"ab") == Err(WireFault::Write)
        && narrow.count == 2
}

fn watched_reader() -> bool {
    let mut reader = Watched::new([1u8, 2, 3].as_slice());
    let mut taken = [0; 2];
    reader.pull(&mut taken).ok() == Some(2)
        && taken == [1, 2]
        && !reader.failed()
        && reader.into_inner() == [3].as_slice()
}

fn watched_writer(alloc: Global) -> bool {
    let mut writer = Watched::new(Vec::new(alloc));
    writer.push(&[1, 2]).ok() == Some(2)
        && !writer.failed()
        && writer.into_inner().as_slice() == [1, 2].as_slice()
}

fn watched_writer_that_is_full() -> bool {
    let mut room = [0; 1];
    let mut full = Watched::new(room.as_mut_slice());
    full.push(&[1, 2]).ok() == Some(1) && full.push(&[2]).is_err() && full.failed()
}

fn failing_reader_and_writer() -> bool {
    let steps = [Some(ErrorKind::Other)];
    let mut reader = Watched::new(Device::new(b"ab", &steps));
    let mut writer = Watched::new(Device::new(b"", &steps));
    let mut taken = [0; 2];
    reader.pull(&mut taken).is_err()
        && reader.failed()
        && writer.push(&[1]).is_err()
        && writer.failed()
}

fn interrupted_calls_are_tried_again() -> bool {
    let steps = [
        Some(ErrorKind::Interrupted),
        Some(ErrorKind::Interrupted),
        None,
    ];
    let mut reader = Watched::new(Device::new(b"ab", &steps));
    let mut writer = Watched::new(Device::new(b"", &steps));
    let mut two = [0; 2];
    reader.pull_uninterrupted(&mut two).ok() == Some(1)
        && two == *b"a\0"
        && !reader.failed()
        && writer.push_uninterrupted(b"xy").ok() == Some(1)
        && !writer.failed()
}

/// Whether the call was interrupted.
fn is_interrupted(called: IoResult<usize>) -> bool {
    match called {
        Ok(_) => false,
        Err(error) => error.kind() == ErrorKind::Interrupted,
    }
}

fn interruptions_are_no_failures() -> bool {
    let steps = [Some(ErrorKind::Interrupted), None];
    let mut reader = Watched::new(Device::new(b"ab", &steps));
    let mut writer = Watched::new(Device::new(b"", &steps));
    let mut two = [0; 2];
    is_interrupted(reader.pull(&mut two))
        && !reader.failed()
        && reader.pull(&mut two).ok() == Some(1)
        && is_interrupted(writer.push(b"xy"))
        && !writer.failed()
        && writer.push(b"xy").ok() == Some(1)
}

fn memory_grows_with_the_bytes_that_come(alloc: Global) -> bool {
    let mut more = Vec::new(alloc);
    read_more(&mut b"ab".as_slice(), u64::MAX, &mut more) == Err(WireFault::Eof)
        && more.as_slice() == b"ab".as_slice()
        && more.capacity() <= 8_192
}

#[test]
fn streams(rt: HostRuntime) {
    let alloc = rt.alloc();
    assert!(rt; byte_after_byte());
    assert!(rt; bytes_after_others(alloc));
    assert!(rt; ends_and_failures(alloc));
    assert!(rt; writers_that_fail_or_are_full());
    assert!(rt; streams_that_fail(alloc));
    assert!(rt; numbers_to_a_writer(alloc));
    assert!(rt; watched_reader());
    assert!(rt; watched_writer(alloc));
    assert!(rt; watched_writer_that_is_full());
    assert!(rt; failing_reader_and_writer());
    assert!(rt; interrupted_calls_are_tried_again());
    assert!(rt; interruptions_are_no_failures());
    assert!(rt; memory_grows_with_the_bytes_that_come(alloc));
}
