//! The events of a file, one by one: the first example of `docs/library/EVENTS.md`.

use events_bodies::QueryEvent;
use events_frames::{BinlogCtx, EventError, EventParts, EventStreamReader, read_struct};
use events_owned::BinlogFile;
use rows_constants::{BinlogVersion, EventType};
use std::alloc::Global;
use std::io::Write;

/// Appends a line for an event: its type, the position after it, and its size; and a line for the text of a query.
fn put_event(
    alloc: Global,
    reader: &EventStreamReader,
    event: &EventParts<'_>,
    text: &mut Vec<u8>,
) -> Result<(), EventError> {
    let header = event.header();
    let Ok(event_type) = header.event_type() else {
        return Err(EventError::Invalid);
    };
    let line = writeln!(
        text,
        "{event_type:?} {} {}",
        header.log_pos(),
        header.event_size()
    );
    line.map_err(|_| EventError::Memory)?;
    if event_type == EventType::QUERY_EVENT {
        let ctx = BinlogCtx::new(
            event.body().len(),
            reader.get_fde(),
            header.event_type_raw(),
        );
        let query = read_struct::<QueryEvent>(alloc, ctx, event.body())?;
        text.extend_from_slice(query.query_raw())?;
        text.push(b'\n')?;
    }
    Ok(())
}

/// A line for each event of a file, and one for the text of each query.
pub fn events_of(alloc: Global, file: &[u8]) -> Result<Vec<u8>, EventError> {
    let mut file = BinlogFile::new(alloc, BinlogVersion::Version4, file)?;
    let mut frame = Vec::new(alloc);
    let mut text = Vec::new(alloc);
    while let Some(event) = file.next_event(&mut frame) {
        put_event(alloc, file.reader(), &event?, &mut text)?;
    }
    Ok(text)
}
