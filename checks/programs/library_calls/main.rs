//! Small programs that call the library again after it ran out of memory. `checks/programs/refused_memory` builds them by `rt try`:
//! nothing here is proved.
//!
//! - `events` lists the events of the binary log on standard input with `EventStreamReader`.
//! - `follower` follows the first bytes of the answer on standard input, and then asks with `Follower::again` for what follows
//!   them; `follower rest` feeds the rest of the answer before it asks once more.
//! - `transactions` follows the answer on standard input with `ChangeFollower`: the positions after its transactions, and the next
//!   request.
//! - `checksums` prints the check value of CRC-32, and the checksum of a long message.
//!
//! A fault is named on standard error, and the status is 1. If memory runs out, `events` and `follower` call the library again.
//! On standard error, `Unchanged` means that a reader ran out of memory, and that the description in force and the table maps were as
//! before; `Changed` is a fault. `Refused` means that the first call of `again` ran out of memory.

mod events;
mod follower;
mod transactions;

use crc32::crc32;
use std::alloc::Global;
use std::env;
use std::io::{self, ErrorKind, Read};
use std::process::ExitCode;
use std::rt::Env;

/// Reads all of a reader's bytes. The error is `Read` or `Memory`.
fn whole<R: Read + Drop>(alloc: Global, mut reader: R) -> Result<Vec<u8>, &'static str> {
    let mut bytes = Vec::new(alloc);
    match reader.read_to_end(&mut bytes) {
        Ok(_) => Ok(bytes),
        Err(error) if error.kind() == ErrorKind::OutOfMemory => Err("Memory"),
        Err(_) => Err("Read"),
    }
}

/// The arguments of the program. The error is `Memory` or `Usage`.
fn words_of(rt: &HostRuntime) -> Result<Vec<String>, &'static str> {
    match env::args(rt) {
        Ok(words) => match words.skip(1).collect(rt.alloc()) {
            Ok(words) => Ok(words),
            Err(_) => Err("Memory"),
        },
        Err(error) if error.kind() == ErrorKind::OutOfMemory => Err("Memory"),
        Err(_) => Err("Usage"),
    }
}

/// 3,000 bytes, each different from its neighbours.
fn long_message() -> [u8; 3000] {
    let mut bytes = [0; 3000];
    let mut byte = 0x9du8;
    for offset in bytes.iter_mut() {
        byte = byte.wrapping_mul(5).wrapping_add(37);
        *offset = byte;
    }
    bytes
}

fn print_checksums(rt: &HostRuntime) -> io::Result<()> {
    println!(rt; "{:08x}", crc32(b"123456789"))?;
    println!(rt; "{:08x}", crc32(&long_message()))?;
    Ok(())
}

/// Lists events; returns `Unchanged` if a reader ran out of memory.
fn list(rt: &HostRuntime, log: &[u8]) -> Result<Option<&'static str>, &'static str> {
    Ok(events::print_events(rt, log)?.then_some("Unchanged"))
}

/// Follows an answer; returns `Refused` if `again` ran out of memory.
fn follow(rt: &HostRuntime, takes_rest: bool) -> Result<Option<&'static str>, &'static str> {
    let answer = whole(rt.alloc(), rt.reader())?;
    Ok(follower::print_request(rt, &answer, takes_rest)?.then_some("Refused"))
}

/// Follows an answer transaction by transaction.
fn lend(rt: &HostRuntime) -> Result<Option<&'static str>, &'static str> {
    let answer = whole(rt.alloc(), rt.reader())?;
    transactions::print_transactions(rt, &answer)?;
    Ok(None)
}

/// Prints the check value, and the checksum of a long message.
fn show_checksums(rt: &HostRuntime) -> Result<Option<&'static str>, &'static str> {
    match print_checksums(rt) {
        Ok(()) => Ok(None),
        Err(_) => Err("Write"),
    }
}

/// Runs what the arguments ask for, and returns what to print on standard error, if anything.
fn run(rt: &HostRuntime) -> Result<Option<&'static str>, &'static str> {
    let words = words_of(rt)?;
    let Some((what, words)) = words.split_first() else {
        return Err("Usage");
    };
    match (what.as_str(), words) {
        ("events", []) => list(rt, &whole(rt.alloc(), rt.reader())?),
        ("follower", []) => follow(rt, false),
        ("follower", [rest]) if rest.as_str() == "rest" => follow(rt, true),
        ("transactions", []) => lend(rt),
        ("checksums", []) => show_checksums(rt),
        _ => Err("Usage"),
    }
}

fn main(rt: HostRuntime) -> ExitCode {
    let (word, status) = match run(&rt) {
        Ok(None) => return ExitCode::SUCCESS,
        Ok(Some(word)) => (word, ExitCode::SUCCESS),
        Err(word) => (word, ExitCode::FAILURE),
    };
    let _ = eprintln!(&rt; "{word}");
    status
}
