//! Follows an answer transaction by transaction: prints a line with the position after each, and then a line of the bytes of the
//! next request, in hexadecimal.

use crate::follower::{FIRST_OFFSET, NAME, PACKET_LIMIT, TEXT_LEN, put_line};
use crc32::crc32;
use binlog_feed::ChangeFollower;
use feed_checks::{Verdict, name_of};
use std::alloc::{AllocError, Global};
use std::io::{self, Write};

/// How many bytes of the answer arrive at once.
const PIECE_LEN: usize = 50;

/// The value, or the name of the error.
fn named<T: Drop>(found: Result<T, Verdict>) -> Result<T, &'static str> {
    match found {
        Ok(value) => Ok(value),
        Err(verdict) => Err(name_of(&verdict)),
    }
}

/// `Memory`, if there was none.
fn put(done: Result<(), AllocError>) -> Result<(), &'static str> {
    match done {
        Ok(()) => Ok(()),
        Err(_) => Err("Memory"),
    }
}

/// Appends the lines of the transactions that an answer commits, and then that of the next request.
fn put_transactions(alloc: Global, answer: &[u8], text: &mut Vec<u8>) -> Result<(), &'static str> {
    let started = ChangeFollower::start(alloc, FIRST_OFFSET, 1, NAME, PACKET_LIMIT, crc32);
    let (mut follower, _request) = match started {
        Ok(started) => started,
        Err(error) => return Err(error.name()),
    };
    for piece in answer.chunks(PIECE_LEN) {
        named(follower.receive(piece))?;
        for _ in 0..piece.len() {
            match follower.advance() {
                Ok(true) => {
                    let position = follower.transaction().log_pos().to_be_bytes();
                    put(put_line(&position, text))?;
                }
                Ok(false) | Err(Verdict::End) => break,
                Err(verdict) => return Err(name_of(&verdict)),
            }
        }
    }
    let request = named(follower.again())?;
    put(put_line(&request, text))
}

/// Prints these lines.
pub(crate) fn print_transactions(rt: &HostRuntime, answer: &[u8]) -> Result<(), &'static str> {
    let Ok(mut text) = Vec::with_capacity(rt.alloc(), TEXT_LEN) else {
        return Err("Memory");
    };
    put_transactions(rt.alloc(), answer, &mut text)?;
    match io::writer(rt).write_all(&text) {
        Ok(()) => Ok(()),
        Err(_) => Err("Write"),
    }
}
