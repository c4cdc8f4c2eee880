//! The example of the documentation on events, and the allocator of a reader.

use events_frames::EventStreamReader;
use rows_constants::BinlogVersion;
use std::alloc::AllocError;
use crate::events_tutorial::events_of;

/// A query event, BEGIN, that ends at position 42.
const BEGIN: &[u8] =
    b"\0\0\0\0\x02\x01\0\0\0\x26\0\0\0\x2a\0\0\0\0\0\x01\0\0\0\0\0\0\0\0\0\0\0\0\0BEGIN";

/// The table map of `d`.`t` with table id 7, which has one column of type LONG.
const TABLE_MAP: &[u8] =
    b"\0\0\0\0\x13\x01\0\0\0\x25\0\0\0\x4f\0\0\0\0\0\x07\0\0\0\0\0\x01\0\x01d\0\x01t\0\x01\x03\0\x01";

/// The event of one inserted row with the value 5.
const INSERT: &[u8] =
    b"\0\0\0\0\x1e\x01\0\0\0\x24\0\0\0\x73\0\0\0\0\0\x07\0\0\0\0\0\x01\0\x02\0\x01\x01\0\x05\0\0\0";

/// The commit of transaction 11.
const COMMIT: &[u8] =
    b"\0\0\0\0\x10\x01\0\0\0\x1b\0\0\0\x8e\0\0\0\0\0\x0b\0\0\0\0\0\0\0";

#[test]
fn events_of_a_file(rt: HostRuntime) -> Result<(), AllocError> {
    let mut file = Vec::from_slice(rt.alloc(), b"\xfebin")?;
    for event in [BEGIN, TABLE_MAP, INSERT, COMMIT] {
        file.extend_from_slice(event)?;
    }
    let text =
        b"QUERY_EVENT 42 38\nBEGIN\nTABLE_MAP_EVENT 79 37\nWRITE_ROWS_EVENT 115 36\nXID_EVENT 142 27\n";
    assert!(rt;
        match events_of(rt.alloc(), &file) {
            Ok(lines) => lines.as_slice() == text.as_slice(),
            Err(_) => false,
        }
    );
    Ok(())
}

// A reader returns the allocator that it takes its memory from.
#[test]
fn allocator_of_a_reader(rt: HostRuntime) -> Result<(), AllocError> {
    let reader = EventStreamReader::new(rt.alloc(), BinlogVersion::Version4)?;
    let bytes = Vec::from_slice(reader.alloc(), b"binlog")?;
    assert!(rt; bytes.as_slice() == b"binlog".as_slice());
    Ok(())
}
