//! Lists the events of a binary log, a line for each: the number of its type, the position after it in its log, and its size in
//! bytes. If `EventStreamReader` runs out of memory, the event is read again.

use events_frames::{BinlogFileHeader, EventError, EventStreamReader};
use events_owned::{Event, ReadEvents};
use rows_constants::BinlogVersion;
use std::alloc::Global;
use std::io::{self, Write};
use wire_buf::Watched;

/// Table maps are compared for the ids below this.
const IDS: u64 = 1000;

/// The name of a fault on standard error.
fn name_of(fault: EventError) -> &'static str {
    match fault {
        EventError::Memory => "Memory",
        EventError::Read => "Read",
        EventError::Frame => "Frame",
        _ => "Damaged",
    }
}

/// Two readers of one log. The other takes each event after the first, so that it has the state that the first had before it.
#[derive(Drop)]
struct Readers {
    first: EventStreamReader,
    other: EventStreamReader,
    was_failed: bool,
}

impl Readers {
    /// Two readers before their first event.
    fn new(alloc: Global) -> Result<Readers, EventError> {
        Ok(Readers {
            first: EventStreamReader::new(alloc, BinlogVersion::Version4)?,
            other: EventStreamReader::new(alloc, BinlogVersion::Version4)?,
            was_failed: false,
        })
    }

    /// Whether both have the same description in force, and the same table maps.
    fn are_alike(&self) -> bool {
        for id in 0..IDS {
            if self.first.get_tme(id) != self.other.get_tme(id) {
                return false;
            }
        }
        self.first.get_fde() == self.other.get_fde()
    }

    /// The first reader reads the event at the start of the bytes; once more if it runs out of memory.
    fn read_first(&mut self, bytes: &[u8]) -> Result<Option<Event<'static>>, &'static str> {
        match self.first.read(&mut Watched::new(bytes)) {
            Ok(event) => Ok(event),
            Err(EventError::Memory) => self.read_again(bytes),
            Err(fault) => Err(name_of(fault)),
        }
    }

    /// The first reader, which ran out of memory, reads the event again. Its state must be as before.
    fn read_again(&mut self, bytes: &[u8]) -> Result<Option<Event<'static>>, &'static str> {
        if !self.are_alike() {
            return Err("Changed");
        }
        self.was_failed = true;
        match self.first.read(&mut Watched::new(bytes)) {
            Ok(event) => Ok(event),
            Err(fault) => Err(name_of(fault)),
        }
    }

    /// The same for the other reader.
    fn read_other(&mut self, bytes: &[u8]) -> Result<(), &'static str> {
        for _ in 0..2 {
            match self.other.read(&mut Watched::new(bytes)) {
                Ok(_) => return Ok(()),
                Err(EventError::Memory) => {}
                Err(fault) => return Err(name_of(fault)),
            }
        }
        Err("Memory")
    }
}

/// Appends the line of an event, or none of it, and returns the event's size.
fn put_line(event: Event<'_>, lines: &mut Vec<u8>) -> Result<usize, &'static str> {
    let header = event.header();
    let start = lines.len();
    let line = writeln!(
        lines,
        "{} {} {}",
        header.event_type_raw(),
        header.log_pos(),
        header.event_size()
    );
    if line.is_err() {
        lines.truncate(start);
        return Err("Memory");
    }
    Ok(header.event_size() as usize)
}

/// Appends the line of the event at the start of the bytes, and returns its size, or 0 if there is no event.
fn put_next(
    readers: &mut Readers,
    bytes: &[u8],
    lines: &mut Vec<u8>,
) -> Result<usize, &'static str> {
    match readers.read_first(bytes) {
        Ok(Some(event)) => put_line(event, lines),
        Ok(None) => Ok(0),
        Err(fault) => Err(fault),
    }
}

/// Appends the lines of the events of a log, up to the first fault.
fn put_lines(readers: &mut Readers, log: &[u8], lines: &mut Vec<u8>) -> Result<(), &'static str> {
    let mut rest = log.get(BinlogFileHeader::LEN..).unwrap_or(&[]);
    for _ in 0..u64::MAX {
        let size = put_next(readers, rest, lines)?;
        if size == 0 {
            break;
        }
        readers.read_other(rest)?;
        rest = rest.get(size..).unwrap_or(&[]);
    }
    Ok(())
}

/// The same by two new readers; returns whether one ran out of memory.
fn put_log(alloc: Global, log: &[u8], lines: &mut Vec<u8>) -> Result<bool, &'static str> {
    match Readers::new(alloc) {
        Ok(mut readers) => match put_lines(&mut readers, log, lines) {
            Ok(()) => Ok(readers.was_failed),
            Err(fault) => Err(fault),
        },
        Err(fault) => Err(name_of(fault)),
    }
}

/// Prints the events of a log; returns whether a reader ran out of memory and had the same state after it.
pub(crate) fn print_events(rt: &HostRuntime, log: &[u8]) -> Result<bool, &'static str> {
    let alloc = rt.alloc();
    let mut lines = Vec::new(alloc);
    let listed = put_log(alloc, log, &mut lines);
    match io::writer(rt).write_all(&lines) {
        Ok(()) => listed,
        Err(_) => Err("Write"),
    }
}
