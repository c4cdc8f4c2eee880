//! Consecutive events in a log: how they are read, and in how much memory.

use crate::event_devices::{Trickle, steps_of};
use crate::event_words::{put_field, put_unless};
use crate::words::{Fault, bytes_of, number_of, only_bytes_of, put_bytes, put_text};
use events_frames::{EventError, EventSource, NextFrame, gather, next_frame};
use linked_list_allocator::LocalHeap;
use std::alloc::Global;
use std::io::Read;
use wire_buf::Watched;

/// The length of a source's first buffer: a log up to this length arrives at once.
const FIRST_BUFFER: usize = 131_072;

/// Appends the outcome of reading frames until none remains: the sizes of the events, and how it ends. Returns how many bytes of
/// an incomplete event were read.
fn put_frames(alloc: Global, log: &[u8], out: &mut Vec<u8>) -> Result<usize, Fault> {
    let mut input = Watched::new(log);
    let mut event = Vec::new(alloc);
    let mut rest = log;
    loop {
        let outcome = next_frame(&mut input, &mut event);
        put_unless(rest.starts_with(&event), "of other bytes", out)?;
        let is_small = event.capacity() <= 8_192 || log.len() > 4_096;
        put_unless(is_small, "in too much memory", out)?;
        match outcome {
            Ok(NextFrame::Event) => put_field("", event.len(), out)?,
            _ => {
                put_end(outcome, 0, out)?;
                return Ok(event.len());
            }
        }
        put_text(" ", out)?;
        rest = rest.get(event.len()..).unwrap_or(b"");
    }
}

/// Appends the outcome of reading a frame, and how many bytes of an incomplete event were read.
fn put_end(
    outcome: Result<NextFrame, EventError>,
    len: usize,
    out: &mut Vec<u8>,
) -> Result<(), Fault> {
    match outcome {
        Ok(end) => put_field("", end, out)?,
        Err(fault) => put_field("", fault, out)?,
    }
    put_len(len, out)
}

/// Appends the number of bytes of an incomplete event, if there are any.
fn put_len(len: usize, out: &mut Vec<u8>) -> Result<(), Fault> {
    if len == 0 {
        return Ok(());
    }
    put_field(" with ", len, out)
}

/// The same by a source, whose log arrives at once, or byte by byte.
fn put_sourced<R: Read>(
    source: &mut EventSource,
    input: &mut Watched<R>,
    log: &[u8],
    arrives_at_once: bool,
    out: &mut Vec<u8>,
) -> Result<(), Fault> {
    let mut rest = log;
    put_unless(!source.has_next(), "it has an event before it reads", out)?;
    loop {
        let outcome = source.next_frame(input);
        let event = source.event();
        put_unless(rest.starts_with(event), "of other bytes", out)?;
        rest = rest.get(event.len()..).unwrap_or(b"");
        put_unless(rest.starts_with(source.waiting()), "other bytes wait", out)?;
        if outcome != Ok(NextFrame::Event) {
            let has_none = event.is_empty() && !source.has_next();
            put_unless(has_none, "it has an event at its end", out)?;
            put_unless(
                source.next_frame(input) == outcome,
                "it ends otherwise again",
                out,
            )?;
            return put_end(outcome, 0, out);
        }
        put_field("", event.len(), out)?;
        put_text(" ", out)?;
        let has_next = arrives_at_once && begins_with_event(rest);
        let is_known = source.has_next() == has_next || log.len() > FIRST_BUFFER;
        put_unless(is_known, "it has an event or not", out)?;
    }
}

/// Whether the bytes begin with a whole event.
fn begins_with_event(bytes: &[u8]) -> bool {
    match bytes.get(9..13) {
        Some([a, b, c, d]) => {
            let size = u32::from_le_bytes([*a, *b, *c, *d]) as usize;
            size >= 19 && bytes.len() >= size
        }
        _ => false,
    }
}

/// Appends a remark if a source has another outcome for the log, which arrives at once, or byte by byte.
fn put_unless_sourced<R: Read + Drop>(
    alloc: Global,
    log: &[u8],
    input: R,
    arrives_at_once: bool,
    out: &mut Vec<u8>,
) -> Result<(), Fault> {
    let mut sourced = Vec::new(alloc);
    let mut source = EventSource::new(alloc);
    put_sourced(
        &mut source,
        &mut Watched::new(input),
        log,
        arrives_at_once,
        &mut sourced,
    )?;
    put_unless(out.starts_with(&sourced), "a source has other events", out)
}

/// `frames LOG`: the sizes of a log's events, how it ends, and ` with ` the number of bytes of an incomplete event. A source
/// has the same events if all bytes arrive at once, and, up to 4,096 bytes, if they arrive one by one.
pub(crate) fn put_frames_of(
    alloc: Global,
    arguments: &[&str],
    out: &mut Vec<u8>,
) -> Result<(), Fault> {
    let log = only_bytes_of(alloc, arguments)?;
    let len = put_frames(alloc, &log, out)?;
    put_unless_sourced(alloc, &log, log.as_slice(), true, out)?;
    if log.len() <= 4_096 {
        put_unless_sourced(alloc, &log, Trickle::new(&log, &[]), false, out)?;
    }
    put_len(len, out)
}

/// `failing_frames STEPS LOG`: the outcome of reading the first event from a reader that takes these steps, and the number of
/// bytes that were read; then those of a source, whose reading goes on after an error.
pub(crate) fn put_failing_frames(
    alloc: Global,
    arguments: &[&str],
    out: &mut Vec<u8>,
) -> Result<(), Fault> {
    let [steps, log] = arguments else {
        return Err(Fault::NoCase);
    };
    let (steps, log) = (steps_of(alloc, steps)?, bytes_of(alloc, log)?);
    let mut input = Watched::new(Trickle::new(&log, &steps));
    let mut event = Vec::new(alloc);
    let outcome = next_frame(&mut input, &mut event);
    put_end(outcome, event.len(), out)?;
    put_unless(log.starts_with(&event), "of other bytes", out)?;
    put_unless(
        input.failed() == outcome.is_err(),
        "the reader failed or not",
        out,
    )?;
    put_text(", ", out)?;
    let mut source = EventSource::new(alloc);
    let mut input = Watched::new(Trickle::new(&log, &steps));
    let outcome = source.next_frame(&mut input);
    put_end(outcome, source.event().len(), out)?;
    put_unless(
        input.failed() == outcome.is_err(),
        "the reader failed or not",
        out,
    )?;
    put_unless(!source.has_next(), "it has an event after an error", out)?;
    put_text(", ", out)?;
    put_sourced(&mut source, &mut input, &log, false, out)
}

/// `gather STEPS COUNT BYTES`: the bytes that are gathered after `ab` if so many are wanted of a reader with these bytes that
/// takes these steps, and the error.
pub(crate) fn put_gathered(
    alloc: Global,
    arguments: &[&str],
    out: &mut Vec<u8>,
) -> Result<(), Fault> {
    let [steps, count, bytes] = arguments else {
        return Err(Fault::NoCase);
    };
    let (steps, count) = (steps_of(alloc, steps)?, number_of(count)?);
    let bytes = bytes_of(alloc, bytes)?;
    let mut gathered = Vec::from_slice(alloc, b"ab")?;
    let mut reader = Watched::new(Trickle::new(&bytes, &steps));
    let outcome = gather(&mut reader, count, &mut gathered);
    put_bytes(&gathered, out)?;
    put_unless(gathered.capacity() <= 8_192, "in too much memory", out)?;
    match outcome {
        Ok(()) => Ok(()),
        Err(fault) => put_field(" ", fault, out),
    }
}

/// `gather_in MEMORY LEN`: the number of bytes in the buffer after gathering all of a reader's bytes, so many, after `ab` in this
/// much memory, how many remain to be read, and the error.
pub(crate) fn put_gathered_in(
    alloc: Global,
    arguments: &[&str],
    out: &mut Vec<u8>,
) -> Result<(), Fault> {
    let [memory, len] = arguments else {
        return Err(Fault::NoCase);
    };
    let mut bytes = Vec::new(alloc);
    bytes.resize(number_of(len)? as usize, 7)?;
    let heap = LocalHeap::new(alloc, number_of(memory)? as usize)?;
    let mut gathered = Vec::new(&heap);
    gathered.extend_from_slice(b"ab")?;
    let mut reader = Watched::new(bytes.as_slice());
    let outcome = gather(&mut reader, u64::MAX, &mut gathered);
    put_field("", gathered.len(), out)?;
    put_field(" before ", reader.into_inner().len(), out)?;
    match outcome {
        Ok(()) => Ok(()),
        Err(fault) => put_field(" ", fault, out),
    }
}
