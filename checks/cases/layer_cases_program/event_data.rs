//! The body of an event of any type.

use crate::event_memory::{put_value_written, written};
use crate::event_words::{body_of, description_with, put_debug, put_unless};
use crate::words::{Fault, byte_of, put_text};
use events_frames::{BinlogCtx, FormatDescriptionEvent};
use events_owned::EventData;
use rows_constants::EventType;
use std::alloc::Global;

/// The `Debug` text of a body.
fn text_of(alloc: Global, data: &EventData<'_>) -> Result<Vec<u8>, Fault> {
    let mut text = Vec::new(alloc);
    put_debug(data, &mut text)?;
    Ok(text)
}

/// Appends the `Debug` text of a body, and a remark if it isn't the same when it is owned.
fn put_data<'a>(
    alloc: Global,
    event_type: EventType,
    in_force: &'a FormatDescriptionEvent<'a>,
    body: &'a [u8],
    out: &mut Vec<u8>,
) -> Result<(), Fault> {
    let ctx = BinlogCtx::new(body.len(), in_force, 0);
    let data = EventData::read(alloc, event_type, ctx, body)?;
    let text = text_of(alloc, &data)?;
    out.extend_from_slice(&text)?;
    put_value_written(alloc, &data, data.len(), body, out)?;
    let owned = EventData::read(alloc, event_type, ctx, body)?.into_owned(alloc)?;
    put_unless(owned == data, "it isn't the same when owned", out)?;
    let is_shown = text_of(alloc, &owned)?.as_slice() == text.as_slice();
    put_unless(is_shown, "of another text when owned", out)?;
    put_value_written(alloc, &owned, owned.len(), &written(alloc, &data)?, out)
}

/// `event_data TYPE BODY [LENGTHS]`: the `Debug` text of the body of an event whose type has this number, and what is written for
/// it if it differs. The format description in force has these post-header lengths, or none.
pub(crate) fn put_event_data(
    alloc: Global,
    arguments: &[&str],
    out: &mut Vec<u8>,
) -> Result<(), Fault> {
    let (number, body, lengths) = body_of(alloc, arguments)?;
    let Ok(event_type) = EventType::try_from(byte_of(number)?) else {
        return put_text("an unknown type", out);
    };
    put_data(alloc, event_type, &description_with(&lengths), &body, out)
}
