//! Computes the checksums of a file's pieces of a length: prints their sum, and on standard error the nanoseconds of the fastest turn.
//! `bench/checksums` proves and builds it.
#![tactic(auto)]

use crc32::crc32;
use std::process::ExitCode;
use std::rt::{Env, Files};
use std::time::Instant;
use std::{env, fs, io};

/// How often the checksums are computed.
const TURNS: usize = 9;

/// The sum of the checksums of a message's pieces of `len` bytes, at least 1.
fn sum_of_checksums(bytes: &[u8], len: usize) -> u32 {
    let mut sum = 0u32;
    for piece in bytes.chunks(len.max(1)) {
        sum = sum.wrapping_add(crc32(piece));
    }
    sum
}

/// Prints the sum of the checksums of a file's pieces; on standard error, the nanoseconds of the fastest turn.
fn print_file(rt: &HostRuntime, path: &str, len: &str) -> io::Result<()> {
    let bytes = fs::read(rt, path)?;
    let len = len.parse().unwrap_or(usize::MAX);
    let mut fastest = u128::MAX;
    let mut sum = 0;
    for _ in 0..TURNS {
        let start = Instant::now(rt)?;
        sum = sum_of_checksums(&bytes, len);
        fastest = fastest.min(start.elapsed(rt)?.as_nanos());
    }
    println!(rt; "{sum:08x}")?;
    eprintln!(rt; "{fastest}")?;
    Ok(())
}

/// The arguments of the program; none if they can't be read.
fn words_of(rt: &HostRuntime) -> Vec<String> {
    match env::args(rt) {
        Ok(words) => match words.skip(1).collect(rt.alloc()) {
            Ok(words) => words,
            Err(_) => Vec::new(rt.alloc()),
        },
        Err(_) => Vec::new(rt.alloc()),
    }
}

fn main(rt: HostRuntime) -> ExitCode {
    let words = words_of(&rt);
    match words.as_slice() {
        [path, len] if print_file(&rt, path.as_str(), len.as_str()).is_ok() => ExitCode::SUCCESS,
        _ => ExitCode::FAILURE,
    }
}
