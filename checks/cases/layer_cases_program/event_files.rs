//! Binary log files, and owned events.

use crate::event_readers::put_state;
use crate::event_words::{put_debug, put_field, put_unless};
use crate::words::{Fault, bytes_of, only_bytes_of, put_text, put_written};
use events_frames::{
    BinlogEventHeader, EventError, EventParts, EventStreamReader, FormatDescriptionEvent, XidEvent,
    calc_checksum,
};
use events_owned::{BinlogFile, Event, EventData, write_event};
use rows_constants::{BinlogChecksumAlg, BinlogVersion};
use std::alloc::Global;
use std::rc::Rc;
use wire_buf::Watched;

/// The sum of the bytes, used as a checksum.
pub(crate) fn added(bytes: &[u8]) -> u32 {
    bytes
        .iter()
        .fold(0, |sum: u32, byte| sum.wrapping_add(u32::from(*byte)))
}

/// A file with these bytes.
fn file_of(alloc: Global, bytes: &[u8]) -> Result<BinlogFile<&[u8]>, EventError> {
    BinlogFile::new(alloc, BinlogVersion::Version4, bytes)
}

/// Appends the type of an event, the position after it and its size.
fn put_header(header: BinlogEventHeader, out: &mut Vec<u8>) -> Result<(), Fault> {
    match header.event_type() {
        Ok(event_type) => put_debug(&event_type, out)?,
        Err(_) => put_field("", header.event_type_raw(), out)?,
    }
    put_field(" ", header.log_pos(), out)?;
    put_field(" ", header.event_size(), out)
}

/// Appends what the reader of a file has kept at its end, after its events.
fn put_end(separator: &str, reader: &EventStreamReader, out: &mut Vec<u8>) -> Result<(), Fault> {
    if separator.is_empty() {
        put_text("no event", out)?;
    }
    put_text(",", out)?;
    put_state(reader, out)
}

/// Appends the events of a file, separated by commas, and the error that it ends with. Returns what is written for its events.
pub(crate) fn put_events(alloc: Global, bytes: &[u8], out: &mut Vec<u8>) -> Result<Vec<u8>, Fault> {
    let mut file = file_of(alloc, bytes)?;
    let (mut frame, mut scratch) = (Vec::new(alloc), Vec::new(alloc));
    let mut output = Vec::new(alloc);
    let mut separator = "";
    while let Some(event) = file.next_event(&mut frame) {
        put_text(separator, out)?;
        match event {
            Ok(parts) => {
                put_header(parts.header(), out)?;
                write_event(&parts, &mut output, &mut scratch, &added)?;
            }
            Err(fault) => put_field("", fault, out)?,
        }
        separator = ", ";
    }
    let is_over = file.next_event(&mut frame).is_none();
    put_unless(is_over, "it goes on after its end", out)?;
    put_end(separator, file.reader(), out)?;
    Ok(output)
}

/// The same by owned events.
fn put_owned_events(alloc: Global, bytes: &[u8], out: &mut Vec<u8>) -> Result<Vec<u8>, Fault> {
    let mut file = file_of(alloc, bytes)?;
    let mut output = Vec::new(alloc);
    let mut separator = "";
    while let Some(event) = file.next() {
        put_text(separator, out)?;
        match event {
            Ok(event) => {
                put_header(event.header(), out)?;
                event.write(alloc, BinlogVersion::Version4, &mut output, &added)?;
            }
            Err(fault) => put_field("", fault, out)?,
        }
        separator = ", ";
    }
    put_unless(file.next().is_none(), "it goes on after its end", out)?;
    put_end(separator, file.reader(), out)?;
    Ok(output)
}

/// Appends the events of a file, how it ends and what its reader has kept, and what is written for the events if it isn't what
/// the file has after its magic number. Owned events are the same.
pub(crate) fn put_file_of(alloc: Global, bytes: &[u8], out: &mut Vec<u8>) -> Result<(), Fault> {
    let output = put_events(alloc, bytes, out)?;
    let events = bytes.get(4..).unwrap_or(b"");
    if !events.starts_with(&output) {
        put_written(&output, b"", out)?;
    }
    let mut owned = Vec::new(alloc);
    let is_same = put_owned_events(alloc, bytes, &mut owned)?.as_slice() == output.as_slice();
    put_unless(is_same, "owned events are written otherwise", out)?;
    put_unless(out.starts_with(&owned), "owned events differ", out)
}

/// `file BYTES`: the type of each event of a file, the position after it and its size; the error that the file ends with; and, as
/// for
/// `reader`, what its reader has kept.
pub(crate) fn put_file(alloc: Global, arguments: &[&str], out: &mut Vec<u8>) -> Result<(), Fault> {
    let bytes = only_bytes_of(alloc, arguments)?;
    put_file_of(alloc, &bytes, out)
}

/// `file_after EVENT BYTES`: the same for a file whose reader has accepted this event before the file's first one.
pub(crate) fn put_file_after(
    alloc: Global,
    arguments: &[&str],
    out: &mut Vec<u8>,
) -> Result<(), Fault> {
    let [event, bytes] = arguments else {
        return Err(Fault::NoCase);
    };
    let event = bytes_of(alloc, event)?;
    let bytes = bytes_of(alloc, bytes)?;
    let mut file = file_of(alloc, &bytes)?;
    put_text("before", out)?;
    put_state(file.reader(), out)?;
    file.reader_mut().read_slice(&event)?;
    put_text(", then", out)?;
    put_state(file.reader(), out)?;
    let mut frame = Vec::new(alloc);
    while let Some(event) = file.next_event(&mut frame) {
        put_text(", ", out)?;
        put_header(event?.header(), out)?;
    }
    put_text(",", out)?;
    put_state(file.reader(), out)
}

/// Appends the `Debug` text of an event's body, or that it has an unknown type. A commit is the same if it is read as one.
fn put_data(alloc: Global, event: &Event<'_>, out: &mut Vec<u8>) -> Result<(), Fault> {
    let Some(data) = event.read_data(alloc)? else {
        return put_text("an unknown type", out);
    };
    put_debug(&data, out)?;
    if event.header().event_type_raw() == 16 {
        let commit = event.read_event::<XidEvent>(alloc)?;
        put_unless(EventData::XidEvent(commit) == data, "another commit", out)?;
    }
    Ok(())
}

/// Appends the checksum of an event, and a remark if it isn't that of the bytes before the checksum.
fn put_sum(alloc: Global, event: &Event<'_>, bytes: &[u8], out: &mut Vec<u8>) -> Result<(), Fault> {
    let (off, crc) = (
        BinlogChecksumAlg::BINLOG_CHECKSUM_ALG_OFF,
        BinlogChecksumAlg::BINLOG_CHECKSUM_ALG_CRC32,
    );
    let sum = event.calc_checksum(alloc, crc, &added)?;
    put_field(" sum ", sum, out)?;
    put_unless(
        event.calc_checksum(alloc, off, &added)? == 0,
        "a sum without checksums",
        out,
    )?;
    let size = event.header().event_size() as usize;
    let end = if event.checksum().is_some() {
        size - 4
    } else {
        size
    };
    let covered = bytes.get(..end).unwrap_or(b"");
    let is_same = calc_checksum(covered, &mut Vec::new(alloc), &added)? == sum;
    put_unless(is_same, "the sum of its bytes is another", out)
}

/// Appends what is written for an event, if it differs from the bytes.
fn put_event_written(
    alloc: Global,
    event: &Event<'_>,
    bytes: &[u8],
    out: &mut Vec<u8>,
) -> Result<(), Fault> {
    let mut output = Vec::new(alloc);
    let result = event.write(alloc, BinlogVersion::Version4, &mut output, &added);
    let mut by_parts = Vec::new(alloc);
    let other = write_event(&event.parts(), &mut by_parts, &mut Vec::new(alloc), &added);
    let are_same = result == other && output.as_slice() == by_parts.as_slice();
    put_unless(are_same, "its parts are written otherwise", out)?;
    match result {
        Ok(()) => put_written(&output, bytes, out),
        Err(fault) => put_field(" not written ", fault, out),
    }
}

/// Appends a remark if an event isn't the same when it is split from its bytes, or created from its parts.
fn put_unless_kept(
    alloc: Global,
    event: &Event<'_>,
    fde: &Rc<FormatDescriptionEvent<'static>>,
    bytes: &[u8],
    out: &mut Vec<u8>,
) -> Result<(), Fault> {
    let size = event.header().event_size() as usize;
    let parts = EventParts::split(bytes.get(..size).unwrap_or(b""), fde.footer())?;
    put_unless(event.parts() == parts, "of other parts", out)?;
    let kept = Event::from_parts(alloc, fde, &parts)?;
    let is_kept = kept.parts() == parts && *kept.fde() == **fde && *event.fde() == **fde;
    put_unless(is_kept, "its parts aren't kept", out)?;
    let is_same = event.data() == parts.body()
        && event.footer() == parts.footer()
        && event.ctx().event_size() == parts.body().len();
    put_unless(is_same, "of other data", out)
}

/// `event BYTES`: the `Debug` text of the body of the event that the bytes begin with, under an empty format description; ` sum `
/// and the checksum that it should have; and what is written for it, with that checksum, if it differs.
pub(crate) fn put_event(alloc: Global, arguments: &[&str], out: &mut Vec<u8>) -> Result<(), Fault> {
    let bytes = only_bytes_of(alloc, arguments)?;
    let fde = Rc::new(alloc, FormatDescriptionEvent::new(BinlogVersion::Version4))?;
    let event = Event::read(alloc, &fde, &mut Watched::new(bytes.as_slice()))?;
    put_data(alloc, &event, out)?;
    put_sum(alloc, &event, &bytes, out)?;
    put_event_written(alloc, &event, &bytes, out)?;
    put_unless_kept(alloc, &event, &fde, &bytes, out)
}
