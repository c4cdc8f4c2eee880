//! Equality of rows events and of fields of optional metadata; the types of rows events, the lengths of events, and table ids.

use crate::tables::event_of;
use crate::wire_constants::narrow;
use crate::wire_words::len_of;
use crate::words::{Fault, bytes_of, done, put_number, put_rest, put_text};
use rows_constants::EventType;
use rows_event_body::RowsEventType;
use rows_table_map::{MAX_EVENT_LEN, OptionalMetadataIter, TableId, event_len};
use std::alloc::Global;
use std::io::Write;
use wire_buf::ParseBuf;

/// Appends `equal` or `different`, and a remark if it is another answer the other way round.
fn put_equal<T: PartialEq>(one: &T, other: &T, out: &mut Vec<u8>) -> Result<(), Fault> {
    let is_same = *one == *other;
    if is_same == (*one != *other) || is_same != (*other == *one) {
        put_text("not the other way round ", out)?;
    }
    put_text(if is_same { "equal" } else { "different" }, out)
}

/// `equal_events TYPE BYTES TYPE BYTES`: whether two rows events are equal.
pub(crate) fn put_equal_events(
    alloc: Global,
    arguments: &[&str],
    out: &mut Vec<u8>,
) -> Result<(), Fault> {
    let [name, bytes, other_name, other_bytes] = arguments else {
        return Err(Fault::NoCase);
    };
    let (bytes, other_bytes) = (bytes_of(alloc, bytes)?, bytes_of(alloc, other_bytes)?);
    let one = event_of(alloc, name, 10, 10, &bytes)?;
    let other = event_of(alloc, other_name, 10, 10, &other_bytes)?;
    put_equal(&one, &other, out)
}

/// `equal_fields TYPES BYTES BYTES`: whether the first fields of two optional metadata are equal, for a table with columns of
/// these types.
pub(crate) fn put_equal_fields(
    alloc: Global,
    arguments: &[&str],
    out: &mut Vec<u8>,
) -> Result<(), Fault> {
    let [types, bytes, other_bytes] = arguments else {
        return Err(Fault::NoCase);
    };
    let types = bytes_of(alloc, types)?;
    let (bytes, other_bytes) = (bytes_of(alloc, bytes)?, bytes_of(alloc, other_bytes)?);
    let one = OptionalMetadataIter::new(&types, &bytes).next();
    let other = OptionalMetadataIter::new(&types, &other_bytes).next();
    match (one, other) {
        (Some(Ok(one)), Some(Ok(other))) => put_equal(&one, &other, out),
        _ => Err(Fault::NoCase),
    }
}

/// `rows_event_type NUMBER`: the rows event type of the event type with this number, and the images of its rows; or `none`.
pub(crate) fn put_event_type(arguments: &[&str], out: &mut Vec<u8>) -> Result<(), Fault> {
    let [number] = arguments else {
        return Err(Fault::NoCase);
    };
    let Ok(event_type) = EventType::try_from(narrow::<u8>(number)?) else {
        return Err(Fault::NoCase);
    };
    let Some(rows_type) = RowsEventType::of(event_type) else {
        return done(write!(out, "{event_type:?} none"));
    };
    let images = rows_type.images();
    done(write!(out, "{:?} {images:?}", rows_type.event_type()))?;
    let has = [
        (" before", images.has_before()),
        (" after", images.has_after()),
        (" partial", images.has_partial_after()),
    ];
    for (name, is_there) in has {
        if is_there {
            put_text(name, out)?;
        }
    }
    Ok(())
}

/// `event_len LENGTH ..`: the length of an event with parts of these lengths, and `at most` if it is the maximum.
pub(crate) fn put_event_len(
    alloc: Global,
    arguments: &[&str],
    out: &mut Vec<u8>,
) -> Result<(), Fault> {
    let mut parts = Vec::new(alloc);
    for word in arguments {
        parts.push(len_of(word)?)?;
    }
    let len = event_len(&parts);
    put_number(len as u64, out)?;
    if len == MAX_EVENT_LEN {
        put_text(" at most", out)?;
    }
    Ok(())
}

/// `table_id LEN BYTES`: the table id that the bytes begin with, for this post-header length, and the bytes after it.
pub(crate) fn put_table_id(
    alloc: Global,
    arguments: &[&str],
    out: &mut Vec<u8>,
) -> Result<(), Fault> {
    let [len, bytes] = arguments else {
        return Err(Fault::NoCase);
    };
    let bytes = bytes_of(alloc, bytes)?;
    let mut buf = ParseBuf(&bytes);
    let table_id = buf.parse::<TableId>(alloc, len_of(len)?)?;
    put_number(table_id.0, out)?;
    if !(table_id == TableId(table_id.0)) {
        put_text(" made otherwise", out)?;
    }
    put_rest(buf.0, out)
}
