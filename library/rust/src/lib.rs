//! The committed changes of MySQL's binary logs, by the proved reader libcuvragyen.
//!
//! A [`Log`] takes bytes in pieces of any lengths, and lends each transaction once its commit has arrived:
//!
//! ```
//! # let bytes = cuvragyen::example_log();
//! let mut log = cuvragyen::Log::open("file=binlog.000001")?;
//! for piece in bytes.chunks(16) {
//!     log.push(piece)?;
//!     while let Some(mut transaction) = log.next()? {
//!         print!("{}", String::from_utf8_lossy(transaction.lines()?));
//!     }
//! }
//! assert!(log.stop().is_whole());
//! # Ok::<(), cuvragyen::Fault>(())
//! ```
//!
//! With the option `records=1` a transaction is a [`Record`] instead: iterators over its changes, rows and cells, borrowed from the log.
//! `docs/library/MYSQL_COMMON.md` says which call stands for which of `mysql_common`'s.

mod raw;
mod record;

pub use record::{Cells, Change, Changes, Column, Kind, NoRecord, Record, Row, RowIter, Rows, Statement, Table, Value};

use std::ffi::CStr;
use std::fmt;
use std::os::raw::c_char;

/// Why a log can't be opened or read further: a verdict of the library, such as `Checksum`.
#[derive(Clone, Copy, PartialEq, Eq)]
pub struct Fault(u32);

impl Fault {
    /// Its number, as the constants `CUVRAGYEN_..` of the header.
    pub fn number(self) -> u32 {
        self.0
    }

    /// Its name: `Checksum`, `Memory` and so on; `Option` or `Value` for options that can't be taken.
    pub fn name(self) -> &'static str {
        match self.0 {
            raw::BAD_OPTION => "Option",
            raw::BAD_VALUE => "Value",
            raw::BAD_SCHEMA => "Schema",
            number => verdict_name(number),
        }
    }
}

impl fmt::Display for Fault {
    fn fmt(&self, f: &mut fmt::Formatter<'_>) -> fmt::Result {
        f.write_str(self.name())
    }
}

impl fmt::Debug for Fault {
    fn fmt(&self, f: &mut fmt::Formatter<'_>) -> fmt::Result {
        f.write_str(self.name())
    }
}

impl std::error::Error for Fault {}

fn verdict_name(number: u32) -> &'static str {
    let mut name = raw::View::EMPTY;
    // SAFETY: the view is valid for the call, and the name for good.
    unsafe {
        raw::cuvragyen_verdict_name(number, &mut name);
        if name.len == 0 {
            return "Unknown";
        }
        std::str::from_utf8_unchecked(std::slice::from_raw_parts(name.at, name.len))
    }
}

fn done(result: u32) -> Result<(), Fault> {
    match result {
        raw::OK => Ok(()),
        number => Err(Fault(number)),
    }
}

/// The event that committed a transaction.
#[derive(Clone, Copy, Debug, PartialEq, Eq)]
pub struct Header {
    /// When it was written, in seconds since 1970.
    pub time: u32,
    /// The id of its server.
    pub server_id: u32,
    /// The position in the log after it: resume here.
    pub position: u32,
}

/// How the reading of a log ended.
#[derive(Clone, Copy, Debug)]
pub struct End {
    /// `End`, or the fault.
    pub verdict: Fault,
    /// The offset of the event that stopped it, or of the bytes after the last event.
    pub offset: u64,
    /// How many bytes after the last event that was taken were pushed.
    pub remaining: u64,
    /// The position after the last transaction that was committed.
    pub last_commit: Option<u32>,
    /// The type and the size of the event that stopped it.
    pub event: Option<(u8, u32)>,
    /// The type of the last event that was taken.
    pub newest_type: Option<u8>,
    /// Whether a transaction was open.
    pub is_open: bool,
    /// Whether the log ends within an event.
    pub is_cut: bool,
}

impl End {
    /// Whether the log has no fault, and ends after an event and outside a transaction.
    pub fn is_whole(&self) -> bool {
        self.verdict.number() == 100 && !self.is_open && !self.is_cut
    }
}

/// A binary log that arrives in pieces.
pub struct Log {
    handle: raw::Handle,
}

// SAFETY: a handle may go from thread to thread, if the threads are synchronized in between, as the header says.
unsafe impl Send for Log {}

impl Log {
    /// Opens a log of which nothing has arrived. The options are lines `NAME=VALUE`, as `cuvragyen.h` lists them.
    pub fn open(options: &str) -> Result<Log, Fault> {
        let mut log = Log { handle: raw::Handle::CLOSED };
        // SAFETY: the handle is closed, and the options are valid for the call.
        done(unsafe { raw::cuvragyen_open(&mut log.handle, options.as_ptr() as *const c_char, options.len()) })?;
        Ok(log)
    }

    /// The same, with a schema that completes table maps: the text of a file as `binlog-changes --schema` takes it. An error `Schema` has
    /// the number of the line that can't be read, from 1 on; others have 0.
    pub fn open_with_schema(options: &str, schema: &[u8]) -> Result<Log, (Fault, u64)> {
        let mut log = Log { handle: raw::Handle::CLOSED };
        let (text, len, mut line) = (options.as_ptr() as *const c_char, options.len(), 0);
        // SAFETY: the handle is closed, and the options, the schema and the line are valid for the call.
        let opened = unsafe {
            raw::cuvragyen_open_with_schema(&mut log.handle, text, len, schema.as_ptr(), schema.len(), &mut line)
        };
        match done(opened) {
            Ok(()) => Ok(log),
            Err(fault) => Err((fault, line)),
        }
    }

    /// Keeps the next bytes of the log, a piece of any length. Take the transactions that are complete before the next piece.
    pub fn push(&mut self, bytes: &[u8]) -> Result<(), Fault> {
        // SAFETY: the handle is this log's, and the bytes are valid for the call.
        done(unsafe { raw::cuvragyen_push(&mut self.handle, bytes.as_ptr(), bytes.len()) })
    }

    /// Goes on to the next transaction that the options select. None: more bytes are wanted.
    #[allow(clippy::should_implement_trait)]
    pub fn next(&mut self) -> Result<Option<Transaction<'_>>, Fault> {
        // SAFETY: the handle is this log's; views of the transaction before are borrowed from the log, so there are none.
        match unsafe { raw::cuvragyen_next(&mut self.handle) } {
            raw::TRANSACTION => {
                let header = self.header();
                Ok(Some(Transaction { log: self, header }))
            }
            raw::OK => Ok(None),
            number => Err(Fault(number)),
        }
    }

    /// Pushes all that a reader gives, and hands each transaction to a function once its commit has arrived. [`Log::stop`] then says how the
    /// log ended.
    pub fn read_from<E: From<std::io::Error> + From<Fault>>(
        &mut self,
        reader: &mut impl std::io::Read,
        mut take: impl FnMut(Transaction<'_>) -> Result<(), E>,
    ) -> Result<(), E> {
        let mut piece = vec![0; 1 << 17];
        loop {
            let len = reader.read(&mut piece)?;
            if len == 0 {
                return Ok(());
            }
            self.push(&piece[..len])?;
            while let Some(transaction) = self.next()? {
                take(transaction)?;
            }
        }
    }

    /// The event that committed the newest transaction.
    fn header(&mut self) -> Header {
        let mut header = raw::Header::default();
        // SAFETY: the handle is this log's, and the header is valid for the call.
        unsafe { raw::cuvragyen_commit(&mut self.handle, &mut header) };
        Header { time: header.time, server_id: header.server_id, position: header.position }
    }

    /// Ends the log, and returns how it ended: by `End` if it has no fault.
    pub fn stop(&mut self) -> End {
        let mut end = raw::End::default();
        // SAFETY: the handle is this log's, and the end is valid for the call.
        unsafe { raw::cuvragyen_stop(&mut self.handle, &mut end) };
        End {
            verdict: Fault(end.verdict),
            offset: end.offset,
            remaining: end.remaining,
            last_commit: end.has_last_commit.then_some(end.last_commit),
            event: end.has_event.then_some((end.event_type as u8, end.event_size)),
            newest_type: end.has_newest_type.then_some(end.newest_type as u8),
            is_open: end.is_open,
            is_cut: end.is_cut,
        }
    }
}

impl Drop for Log {
    fn drop(&mut self) {
        // SAFETY: the handle is this log's, and isn't used again.
        unsafe { raw::cuvragyen_close(&mut self.handle) };
    }
}

/// A committed transaction, borrowed from its log.
pub struct Transaction<'l> {
    log: &'l mut Log,
    header: Header,
}

impl Transaction<'_> {
    /// The event that committed it.
    pub fn header(&self) -> Header {
        self.header
    }

    /// It as a binary record, of a log with the option `records=1`. An error `Value`: the log was opened without it.
    pub fn record(&mut self) -> Result<Record<'_>, Fault> {
        Record::of(self.lines()?).map_err(|NoRecord| Fault(raw::BAD_VALUE))
    }

    /// Its JSON lines, each with a line feed; of a log with the option `records=1` the bytes of its record.
    pub fn lines(&mut self) -> Result<&[u8], Fault> {
        let mut view = raw::View::EMPTY;
        // SAFETY: the handle is this transaction's log's; the bytes are valid while it is borrowed.
        unsafe {
            match raw::cuvragyen_show(&mut self.log.handle, &mut view) {
                raw::TRANSACTION => Ok(std::slice::from_raw_parts(view.at, view.len)),
                raw::OK => Ok(&[]),
                number => Err(Fault(number)),
            }
        }
    }
}

/// The CRC-32 of bytes, with which MySQL checksums the events of a log.
pub fn crc32(bytes: &[u8]) -> u32 {
    // SAFETY: the bytes are valid for the call.
    unsafe { raw::cuvragyen_crc32(bytes.as_ptr(), bytes.len()) }
}

/// The version of the library.
pub fn version() -> &'static str {
    // SAFETY: the text ends with a zero, and is valid for good.
    unsafe { CStr::from_ptr(raw::cuvragyen_version()) }.to_str().unwrap_or("")
}

/// The packet that asks a server for the events of a log from a position on; None if the name is longer than 511 bytes.
pub fn request(position: u32, server_id: u32, name: &str) -> Option<Vec<u8>> {
    let mut packet = vec![0; name.len() + 15];
    // SAFETY: the name and the room for the packet are valid for the call.
    let len = unsafe {
        raw::cuvragyen_request(position, server_id, name.as_ptr(), name.len(), packet.as_mut_ptr(), packet.len())
    };
    packet.truncate(len);
    (len > 0).then_some(packet)
}

/// How much of truncated JSON lines is complete transactions, and the log and the position to resume from.
pub fn kept_json(lines: &[u8]) -> Result<(u64, Option<(String, u32)>), Fault> {
    let mut kept = raw::Kept::default();
    let mut file = [0u8; 1024];
    // SAFETY: the lines, the result and the room for the name are valid for the call.
    done(unsafe {
        raw::cuvragyen_kept_json(lines.as_ptr(), lines.len(), &mut kept, file.as_mut_ptr(), file.len())
    })?;
    let name = String::from_utf8_lossy(&file[..kept.file_len as usize]).into_owned();
    Ok((kept.len, kept.has_position.then_some((name, kept.position))))
}

/// A log of one transaction that inserts a row, for examples.
#[doc(hidden)]
pub fn example_log() -> Vec<u8> {
    include_bytes!("one_insert").to_vec()
}
