//! Follows the first 200 bytes of an answer and asks again: prints the text of the transactions, and then a line of the request's
//! bytes in hexadecimal. If `Follower::again` runs out of memory, it is called once more; before that, the rest of the answer may
//! be fed, which the follower can only take if nothing was dropped.

use crc32::crc32;
use feed_checks::{Verdict, name_of};
use feed_replication::Follower;
use std::alloc::{AllocError, Global};
use std::io::{self, Write};
use wire_buf::Watched;

/// The maximum length of a payload in bytes.
pub(crate) const PACKET_LIMIT: usize = 1_073_741_824;

/// The position of the first event, after the magic number.
pub(crate) const FIRST_OFFSET: u32 = 4;

/// The name of the requested log.
pub(crate) const NAME: &[u8] = b"master-bin.000002";

/// How many bytes of the answer arrive before the connection drops.
const COUNT: usize = 200;

/// More bytes than the text of the transactions has: the writer allocates nothing for it, since running out of memory would be
/// `Write`.
pub(crate) const TEXT_LEN: usize = 512;

/// The hexadecimal digit of a number below 16.
fn digit_of(number: u8) -> u8 {
    if number < 10 {
        b'0'.wrapping_add(number)
    } else {
        b'a'.wrapping_add(number.wrapping_sub(10))
    }
}

/// Appends a line of bytes in hexadecimal.
pub(crate) fn put_line(bytes: &[u8], text: &mut Vec<u8>) -> Result<(), AllocError> {
    for byte in bytes {
        text.push(digit_of(*byte >> 4))?;
        text.push(digit_of(*byte & 15))?;
    }
    Ok(text.push(b'\n')?)
}

/// Appends the line of the follower's next request; returns whether there was memory for the request.
fn put_request<F: Fn(&[u8]) -> u32>(
    follower: &mut Follower<F>,
    text: &mut Vec<u8>,
) -> Result<bool, &'static str> {
    match follower.again() {
        Ok(request) => match put_line(&request, text) {
            Ok(()) => Ok(true),
            Err(_) => Err("Memory"),
        },
        Err(Verdict::Memory) => Ok(false),
        Err(verdict) => Err(name_of(&verdict)),
    }
}

/// The name of a verdict, if it isn't the wanted one.
fn checked(verdict: Option<Verdict>, wanted: Option<Verdict>) -> Result<(), &'static str> {
    if verdict == wanted {
        return Ok(());
    }
    match verdict {
        Some(verdict) => Err(name_of(&verdict)),
        None => Err("Open"),
    }
}

/// Appends the text of the transactions in an answer's first bytes, and the request after them; if the follower runs out of
/// memory for the request, the rest of the answer may be fed first. Returns whether that happened.
fn put_again(
    alloc: Global,
    answer: &[u8],
    takes_rest: bool,
    text: &mut Vec<u8>,
) -> Result<bool, &'static str> {
    let (mut follower, _request) = match Follower::start(
        alloc,
        FIRST_OFFSET,
        1,
        NAME,
        PACKET_LIMIT,
        crc32,
    ) {
        Ok(started) => started,
        Err(error) => return Err(error.name()),
    };
    let (prefix, rest) = answer.split_at(COUNT.min(answer.len()));
    checked(follower.feed(prefix, &mut Watched::new(&mut *text)), None)?;
    if put_request(&mut follower, text)? {
        return Ok(false);
    }
    if takes_rest {
        let verdict = follower.feed(rest, &mut Watched::new(&mut *text));
        checked(verdict, Some(Verdict::End))?;
    }
    match put_request(&mut follower, text) {
        Ok(true) => Ok(true),
        Ok(false) => Err("Memory"),
        Err(fault) => Err(fault),
    }
}

/// Prints the text of the transactions in an answer's first bytes, and the request after them; returns whether the first call of
/// `again` ran out of memory.
pub(crate) fn print_request(
    rt: &HostRuntime,
    answer: &[u8],
    takes_rest: bool,
) -> Result<bool, &'static str> {
    let Ok(mut text) = Vec::with_capacity(rt.alloc(), TEXT_LEN) else {
        return Err("Memory");
    };
    let was_failed = put_again(rt.alloc(), answer, takes_rest, &mut text)?;
    match io::writer(rt).write_all(&text) {
        Ok(()) => Ok(was_failed),
        Err(_) => Err("Write"),
    }
}
