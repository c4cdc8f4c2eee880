//! Files that are made of bodies: their events, written, are the file again.

use crate::event_files::{added, put_events, put_file_of};
use crate::event_words::{put_field, put_unless};
use crate::words::{Fault, byte_of, bytes_of, put_text};
use events_frames::{BinlogEventHeader, BinlogFileHeader};
use events_owned::BinlogFile;
use rows_constants::BinlogVersion;
use std::alloc::Global;
use wire_buf::MySerialize;

/// Appends an event, and its checksum if it has one.
fn put_event(file: &mut Vec<u8>, kind: u8, body: &[u8], has_sum: bool) -> Result<(), Fault> {
    let start = file.len();
    let rest = if has_sum { 23 } else { 19 };
    let size = u32::try_from(rest + body.len()).unwrap_or(0);
    BinlogEventHeader::new(1, kind, 2, size, 3, 8).serialize(file)?;
    file.extend_from_slice(body)?;
    if has_sum {
        let sum = added(file.as_slice().get(start..).unwrap_or(b""));
        file.extend_from_slice(&sum.to_le_bytes())?;
    }
    Ok(())
}

/// The body of the format description of server 5.6.1 with this algorithm.
fn description(alloc: Global, algorithm: u8) -> Result<Vec<u8>, Fault> {
    let mut body = Vec::from_slice(alloc, b"\x04\x005.6.1")?;
    body.resize(56, 0)?;
    body.push(19)?;
    body.push(algorithm)?;
    Ok(body)
}

/// A file with a format description and these events, each the number of its type, `:` and its body. The format description
/// always has a checksum.
fn file_of(alloc: Global, events: &[&str], has_sums: bool) -> Result<Vec<u8>, Fault> {
    let mut file = Vec::from_slice(alloc, &BinlogFileHeader::VALUE)?;
    put_event(
        &mut file,
        15,
        &description(alloc, u8::from(has_sums))?,
        true,
    )?;
    for event in events {
        let Some((kind, body)) = event.split_once(':') else {
            return Err(Fault::NoCase);
        };
        put_event(&mut file, byte_of(kind)?, &bytes_of(alloc, body)?, has_sums)?;
    }
    Ok(file)
}

/// The number of events that are read from a file, up to an error.
fn count(alloc: Global, file: &[u8]) -> Result<usize, Fault> {
    let mut file = BinlogFile::new(alloc, BinlogVersion::Version4, file)?;
    let mut count = 0;
    while let Some(Ok(_)) = file.next() {
        count += 1;
    }
    Ok(count)
}

/// Appends the number of events that a file has, and a remark if they aren't written as the file.
fn put_counted(
    alloc: Global,
    events: &[&str],
    has_sums: bool,
    out: &mut Vec<u8>,
) -> Result<(), Fault> {
    let file = file_of(alloc, events, has_sums)?;
    put_field("", count(alloc, &file)?, out)?;
    let mut text = Vec::new(alloc);
    put_file_of(alloc, &file, &mut text)?;
    let has_remark = text.windows(5).any(|it| it == b" BUT ".as_slice());
    put_unless(!has_remark, "it isn't read as a file", out)?;
    let output = put_events(alloc, &file, &mut Vec::new(alloc))?;
    let is_same = Some(output.as_slice()) == file.as_slice().get(4..);
    put_unless(is_same, "it is written otherwise", out)
}

/// `log EVENT..`: the number of events in a file with a format description and these events, each the number of its type, `:` and
/// its body: with checksums, and without.
pub(crate) fn put_log(alloc: Global, arguments: &[&str], out: &mut Vec<u8>) -> Result<(), Fault> {
    put_counted(alloc, arguments, true, out)?;
    put_text(" and ", out)?;
    put_counted(alloc, arguments, false, out)
}
