//! The packets of events, and a reader that gives a log in pieces.

use std::alloc::{AllocError, Global};
use std::io::{self, ErrorKind, Read};

/// Appends the packet of an event, with this sequence number.
fn put_packet(stream: &mut Vec<u8>, number: u8, event: &[u8]) -> Result<(), AllocError> {
    let len = event.len().saturating_add(1).to_le_bytes();
    stream.extend_from_slice(&len[..3])?;
    stream.extend_from_slice(&[number, 0])?;
    stream.extend_from_slice(event)
}

/// The packets of events, with sequence numbers from 1 on, and the closing packet if the answer is complete.
pub fn answer_of(alloc: Global, events: &[&[u8]], is_whole: bool) -> Result<Vec<u8>, AllocError> {
    let mut answer = Vec::new(alloc);
    let mut number = 1u8;
    for event in events {
        put_packet(&mut answer, number, event)?;
        number = number.wrapping_add(1);
    }
    if is_whole {
        answer.extend_from_slice(&[5, 0, 0, number, 0xfe, 0, 0, 2, 0])?;
    }
    Ok(answer)
}

/// A reader that gives some bytes, at most a number of them at once, and then ends or fails.
#[derive(Drop)]
pub struct Pieces<'a> {
    pub bytes: &'a [u8],
    pub at_once: usize,
    pub fails: bool,
}

impl Read for Pieces<'_> {
    fn read(&mut self, buf: &mut [u8]) -> io::Result<usize> {
        if self.bytes.is_empty() && self.fails {
            return Err(io::Error::from(ErrorKind::Other));
        }
        let len = self.at_once.min(buf.len());
        self.bytes.read(&mut buf[..len])
    }
}
