//! Readers and writers that transfer few bytes at a time, are interrupted and fail.

use crate::words::Fault;
use std::alloc::Global;
use std::io::{Error, ErrorKind, Read, Result as IoResult, Write};

/// A reader that returns one byte for each call, unless the call should fail.
#[derive(Drop)]
pub(crate) struct Trickle<'a> {
    bytes: &'a [u8],
    steps: &'a [Option<ErrorKind>],
}

impl<'a> Trickle<'a> {
    /// A reader of these bytes, whose first calls return these errors in order.
    pub(crate) fn new(bytes: &'a [u8], steps: &'a [Option<ErrorKind>]) -> Trickle<'a> {
        Trickle { bytes, steps }
    }

    /// The bytes that weren't read yet.
    pub(crate) fn rest(&self) -> &'a [u8] {
        self.bytes
    }

    /// The error of the next call, or None if a byte is transferred.
    fn step(&mut self) -> Option<ErrorKind> {
        let (first, rest) = self.steps.split_first()?;
        self.steps = rest;
        *first
    }
}

impl Read for Trickle<'_> {
    fn read(&mut self, buf: &mut [u8]) -> IoResult<usize> {
        if let Some(kind) = self.step() {
            return Err(Error::from(kind));
        }
        let Some((first, rest)) = self.bytes.split_first() else {
            return Ok(0);
        };
        if buf.is_empty() {
            return Ok(0);
        }
        buf[0] = *first;
        self.bytes = rest;
        Ok(1)
    }
}

/// The steps of a reader: `.` for a byte, `i` for a call that is interrupted, `x` for one that fails; `-` for none.
pub(crate) fn steps_of(alloc: Global, word: &str) -> Result<Vec<Option<ErrorKind>>, Fault> {
    let mut steps = Vec::new(alloc);
    if word == "-" {
        return Ok(steps);
    }
    for byte in word.as_bytes() {
        match *byte {
            b'.' => steps.push(None)?,
            b'i' => steps.push(Some(ErrorKind::Interrupted))?,
            b'x' => steps.push(Some(ErrorKind::Other))?,
            _ => return Err(Fault::NoCase),
        }
    }
    Ok(steps)
}

/// A writer that accepts a number of bytes, one for each call, and then fails.
#[derive(Drop)]
pub(crate) struct NarrowWriter {
    bytes: Vec<u8>,
    room: usize,
}

impl NarrowWriter {
    /// A writer that accepts so many bytes.
    pub(crate) fn new(alloc: Global, room: usize) -> NarrowWriter {
        NarrowWriter {
            bytes: Vec::new(alloc),
            room,
        }
    }

    /// The bytes that were accepted.
    pub(crate) fn written(&self) -> &[u8] {
        &self.bytes
    }
}

impl Write for NarrowWriter {
    fn write(&mut self, buf: &[u8]) -> IoResult<usize> {
        let (Some(first), true) = (buf.first(), self.bytes.len() < self.room) else {
            return Err(Error::from(ErrorKind::Other));
        };
        match self.bytes.push(*first) {
            Ok(()) => Ok(1),
            Err(_) => Err(Error::from(ErrorKind::OutOfMemory)),
        }
    }

    fn flush(&mut self) -> IoResult<()> {
        Ok(())
    }
}
