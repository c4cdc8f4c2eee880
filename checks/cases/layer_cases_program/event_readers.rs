//! Readers of a log's events: the format description in force, and table maps.

use crate::event_words::{put_field, put_unless};
use crate::words::{Fault, bytes_of, put_text};
use events_frames::{EventError, EventParts, EventStreamReader};
use events_owned::ReadEvents;
use feed_text::quote;
use rows_constants::BinlogVersion;
use std::alloc::{AllocError, Global};
use wire_buf::Watched;

/// The table ids whose table maps are looked for.
const TABLE_IDS: u64 = 100;

/// Three readers of the same events: by slices, by parts and by owned events.
#[derive(Drop)]
struct Readers {
    slices: EventStreamReader,
    parts: EventStreamReader,
    owned: EventStreamReader,
}

/// Readers before their first event.
fn new_readers(alloc: Global) -> Result<Readers, AllocError> {
    Ok(Readers {
        slices: EventStreamReader::new(alloc, BinlogVersion::Version4)?,
        parts: EventStreamReader::new(alloc, BinlogVersion::Version4)?,
        owned: EventStreamReader::new(alloc, BinlogVersion::Version4)?,
    })
}

/// Appends what a reader has kept: the server version of the format description in force, and the id and the number of columns of
/// each table map.
pub(crate) fn put_state(reader: &EventStreamReader, out: &mut Vec<u8>) -> Result<(), Fault> {
    put_text(" ", out)?;
    quote(reader.get_fde().server_version_raw(), out)?;
    for table_id in 0..TABLE_IDS {
        if let Some(map) = reader.get_tme(table_id) {
            put_field(" ", table_id, out)?;
            put_field(":", map.columns_count(), out)?;
        }
    }
    Ok(())
}

/// Whether two readers have kept the same.
fn are_same(first: &EventStreamReader, second: &EventStreamReader) -> bool {
    let mut are_same = first.get_fde() == second.get_fde();
    for table_id in 0..TABLE_IDS {
        are_same = are_same && first.get_tme(table_id) == second.get_tme(table_id);
    }
    are_same
}

/// Appends a remark if the parts of the event have another result under the format description in force.
fn put_unless_by_parts(
    reader: &mut EventStreamReader,
    event: &[u8],
    wanted: &Result<EventParts<'_>, EventError>,
    out: &mut Vec<u8>,
) -> Result<(), Fault> {
    let is_same = match EventParts::split(event, reader.get_fde().footer()) {
        Ok(parts) => match reader.accept_parts(&parts) {
            Ok(()) => *wanted == Ok(parts),
            Err(fault) => *wanted == Err(fault),
        },
        Err(fault) => *wanted == Err(fault),
    };
    put_unless(is_same, "another result by parts", out)
}

/// Appends a remark if the owned event has another result; an event of another size isn't read, since the reader has no end.
fn put_unless_owned(
    reader: &mut EventStreamReader,
    event: &[u8],
    wanted: &Result<EventParts<'_>, EventError>,
    out: &mut Vec<u8>,
) -> Result<(), Fault> {
    if *wanted == Err(EventError::Eof) || *wanted == Err(EventError::RemainingBytes) {
        return Ok(());
    }
    let is_same = match reader.read(&mut Watched::new(event)) {
        Ok(Some(event)) => *wanted == Ok(event.parts()),
        Ok(None) => false,
        Err(fault) => *wanted == Err(fault),
    };
    put_unless(is_same, "another result when owned", out)
}

/// Appends the result of an event, and what its reader has kept then.
fn put_event(readers: &mut Readers, event: &[u8], out: &mut Vec<u8>) -> Result<(), Fault> {
    let result = readers.slices.read_slice(event);
    match &result {
        Ok(_) => put_text("ok", out)?,
        Err(fault) => put_field("", *fault, out)?,
    }
    put_unless_by_parts(&mut readers.parts, event, &result, out)?;
    put_unless_owned(&mut readers.owned, event, &result, out)?;
    put_state(&readers.slices, out)?;
    let are_same = are_same(&readers.slices, &readers.parts)
        && are_same(&readers.slices, &readers.owned);
    put_unless(are_same, "readers differ", out)
}

/// `reader EVENT..`: for each event of a log: whether it is accepted, the server version of the format description in force
/// afterwards, and the id and the number of columns of each table map that is kept.
pub(crate) fn put_reader(
    alloc: Global,
    arguments: &[&str],
    out: &mut Vec<u8>,
) -> Result<(), Fault> {
    let mut readers = new_readers(alloc)?;
    let mut separator = "";
    for event in arguments {
        put_text(separator, out)?;
        put_event(&mut readers, &bytes_of(alloc, event)?, out)?;
        separator = "; ";
    }
    Ok(())
}
