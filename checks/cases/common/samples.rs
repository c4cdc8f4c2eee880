//! A small binary log and its report, the acknowledgements of its events, a server's answers, and a writer with limited room.

use crc32::crc32;
use feed_replication::serve;
use std::alloc::{AllocError, Global};
use std::io::{self, ErrorKind, Write};
use wire_buf::Watched;

/// The program's maximum length of a payload.
pub const LIMIT: usize = 1_073_741_824;

/// The name of the binary log that is served.
pub const NAME: &[u8] = b"master-bin.000002";

/// The magic number, `fe 62 69 6e`.
pub const MAGIC_NUMBER: [u8; 4] = [0xfe, 0x62, 0x69, 0x6e];

/// QUERY_EVENT of BEGIN, up to position 42.
pub const BEGIN: [u8; 38] = [
    0x00, 0x00, 0x00, 0x00, 0x02, 0x01, 0x00, 0x00, 0x00, 0x26, 0x00, 0x00, 0x00, 0x2a, 0x00, 0x00,
    0x00, 0x00, 0x00, 0x01, 0x00, 0x00, 0x00, 0x00, 0x00, 0x00, 0x00, 0x00, 0x00, 0x00, 0x00, 0x00,
    0x00, 0x42, 0x45, 0x47, 0x49, 0x4e,
];

/// TABLE_MAP_EVENT of table id 7, `d.t`, with one LONG column, up to position 79.
pub const MAP: [u8; 37] = [
    0x00, 0x00, 0x00, 0x00, 0x13, 0x01, 0x00, 0x00, 0x00, 0x25, 0x00, 0x00, 0x00, 0x4f, 0x00, 0x00,
    0x00, 0x00, 0x00, 0x07, 0x00, 0x00, 0x00, 0x00, 0x00, 0x01, 0x00, 0x01, 0x64, 0x00, 0x01, 0x74,
    0x00, 0x01, 0x03, 0x00, 0x01,
];

/// WRITE_ROWS_EVENT of one row, 5, in table id 7, up to position 115.
pub const ROWS: [u8; 36] = [
    0x00, 0x00, 0x00, 0x00, 0x1e, 0x01, 0x00, 0x00, 0x00, 0x24, 0x00, 0x00, 0x00, 0x73, 0x00, 0x00,
    0x00, 0x00, 0x00, 0x07, 0x00, 0x00, 0x00, 0x00, 0x00, 0x01, 0x00, 0x02, 0x00, 0x01, 0x01, 0x00,
    0x05, 0x00, 0x00, 0x00,
];

/// XID_EVENT, up to position 142.
pub const XID: [u8; 27] = [
    0x00, 0x00, 0x00, 0x00, 0x10, 0x01, 0x00, 0x00, 0x00, 0x1b, 0x00, 0x00, 0x00, 0x8e, 0x00, 0x00,
    0x00, 0x00, 0x00, 0x0b, 0x00, 0x00, 0x00, 0x00, 0x00, 0x00, 0x00,
];

/// The report of the magic number and these events.
pub const TEXT: &str = "begin -\ninsert 'd' 't' 0=5\ncommit 142\n";

/// The acknowledgements of the small binary log's first and last event.
pub const FIRST_ACK: [u8; 14] = [
    0x0a, 0x00, 0x00, 0x00, 0xef, 0x2a, 0x00, 0x00, 0x00, 0x00, 0x00, 0x00, 0x00, 0x6d,
];

pub const LAST_ACK: [u8; 14] = [
    0x0a, 0x00, 0x00, 0x00, 0xef, 0x8e, 0x00, 0x00, 0x00, 0x00, 0x00, 0x00, 0x00, 0x6d,
];

/// The length of the small binary log's answer, and of its prefixes up to the end of the first and of the last event.
pub const WHOLE: usize = 175;

pub const FIRST_END: usize = 45;

pub const LAST_END: usize = 166;

/// The magic number and events.
pub fn file_of(alloc: Global, events: &[&[u8]]) -> Result<Vec<u8>, AllocError> {
    let mut file = Vec::from_slice(alloc, &MAGIC_NUMBER)?;
    for event in events {
        file.extend_from_slice(event)?;
    }
    Ok(file)
}

/// The small binary log, 142 bytes.
pub fn one_insert(alloc: Global) -> Result<Vec<u8>, AllocError> {
    file_of(alloc, &[&BEGIN, &MAP, &ROWS, &XID])
}

/// The small binary log with its transaction a second time, up to position 280.
pub fn two_inserts(alloc: Global) -> Result<Vec<u8>, AllocError> {
    let begin = changed(&BEGIN, 13, 180);
    let map = changed(&MAP, 13, 217);
    let rows = changed(&ROWS, 13, 253);
    let xid = changed(&changed(&XID, 13, 24), 14, 1);
    file_of(
        alloc,
        &[&BEGIN, &MAP, &ROWS, &XID, &begin, &map, &rows, &xid],
    )
}

/// The answer to a request for a log.
pub fn answered(alloc: Global, asked: &[u8], log: &[u8]) -> Vec<u8> {
    let mut reader = Watched::new(log);
    let mut writer = Watched::new(Vec::new(alloc));
    let _served = serve(alloc, asked, NAME, LIMIT, &mut reader, &crc32, &mut writer);
    writer.into_inner()
}

/// A writer that takes a number of bytes, and then fails.
#[derive(Drop)]
pub struct Full {
    pub taken: Vec<u8>,
    pub room: usize,
}

impl Write for Full {
    fn write(&mut self, buf: &[u8]) -> io::Result<usize> {
        if self.room == 0 {
            return Err(io::Error::from(ErrorKind::Other));
        }
        let len = self.room.min(buf.len());
        self.taken.write_all(&buf[..len])?;
        self.room -= len;
        Ok(len)
    }

    fn flush(&mut self) -> io::Result<()> {
        Ok(())
    }
}

/// Whether bytes are these packets in sequence.
pub fn are_joined(bytes: &[u8], packets: &[&[u8]]) -> bool {
    let mut rest = bytes;
    for packet in packets {
        match rest.strip_prefix(*packet) {
            Some(after) => rest = after,
            None => return false,
        }
    }
    rest.is_empty()
}

/// An event with one byte set to another value.
pub fn changed<const N: usize>(event: &[u8; N], at: usize, byte: u8) -> [u8; N] {
    let mut other = *event;
    if at < N {
        other[at] = byte;
    }
    other
}
