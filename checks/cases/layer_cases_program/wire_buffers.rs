//! The calls that take bytes from a buffer one after the other, and the truncation after an error.

use crate::wire_words::{len_of, name_and_argument};
use crate::words::{Fault, bytes_of, done, put_bytes, put_rest, put_text};
use std::alloc::Global;
use std::io::{Read, Write};
use wire_buf::{ParseBuf, WireFault, truncate_on_error};

/// Appends bytes, or `none`.
fn put_optional(bytes: Option<&[u8]>, out: &mut Vec<u8>) -> Result<(), Fault> {
    match bytes {
        Some(bytes) => put_bytes(bytes, out),
        None => put_text("none", out),
    }
}

/// Appends the bytes that a call takes that needs all of them to be there.
fn put_taken(
    call: &str,
    len: usize,
    buf: &mut ParseBuf<'_>,
    out: &mut Vec<u8>,
) -> Result<(), Fault> {
    if len > buf.len() {
        return Err(Fault::NoCase);
    }
    match call {
        "skip" => {
            buf.skip(len);
            put_text("skipped", out)
        }
        "eat" => put_bytes(buf.eat(len), out),
        "eat_buf" => put_bytes(buf.eat_buf(len).0, out),
        _ => Err(Fault::NoCase),
    }
}

/// Appends the bytes that a call takes, if they are there.
fn put_checked(
    call: &str,
    len: usize,
    buf: &mut ParseBuf<'_>,
    out: &mut Vec<u8>,
) -> Result<(), Fault> {
    match call {
        "checked_skip" => {
            let is_skipped = buf.checked_skip(len);
            put_text(if is_skipped { "skipped" } else { "none" }, out)
        }
        "checked_eat" => put_optional(buf.checked_eat(len), out),
        "checked_eat_buf" => put_optional(buf.checked_eat_buf(len).map(|part| part.0), out),
        _ => put_taken(call, len, buf, out),
    }
}

/// Appends the bytes that are read into an array of two.
fn put_read(buf: &mut ParseBuf<'_>, out: &mut Vec<u8>) -> Result<(), Fault> {
    let mut two = [0u8; 2];
    let part: &mut [u8] = &mut two;
    let Ok(count) = buf.read(part) else {
        return Err(Fault::NoCase);
    };
    put_optional(two.get(..count), out)
}

/// Appends what one call gives.
fn put_step(step: &str, buf: &mut ParseBuf<'_>, out: &mut Vec<u8>) -> Result<(), Fault> {
    let (call, len) = name_and_argument(step);
    match call {
        "eat_all" => put_bytes(buf.eat_all(), out),
        "eat_null_str" => put_bytes(buf.eat_null_str(), out),
        "checked_eat_u8_str" => put_optional(buf.checked_eat_u8_str(), out),
        "checked_eat_u32_str" => put_optional(buf.checked_eat_u32_str(), out),
        "checked_eat_lenenc_str" => put_optional(buf.checked_eat_lenenc_str(), out),
        "read" => put_read(buf, out),
        _ => put_checked(call, len_of(len)?, buf, out),
    }
}

/// `buffer BYTES STEP ..`: what each call gives, one after the other, and the bytes that remain, if there are any.
pub(crate) fn put_steps(alloc: Global, arguments: &[&str], out: &mut Vec<u8>) -> Result<(), Fault> {
    let [bytes, steps @ ..] = arguments else {
        return Err(Fault::NoCase);
    };
    let bytes = bytes_of(alloc, bytes)?;
    let mut buf = ParseBuf(&bytes);
    for (index, step) in steps.iter().enumerate() {
        if index > 0 {
            out.push(b' ')?;
        }
        put_step(step, &mut buf, out)?;
    }
    if buf.is_empty() != (buf.len() == 0) || buf.len() != buf.0.len() {
        put_text(" of another length", out)?;
    }
    put_rest(buf.0, out)
}

/// `truncate_on_error BYTES LEN RESULT`: the result, which is `Ok` or `Form`, and the bytes afterwards.
pub(crate) fn put_truncated(
    alloc: Global,
    arguments: &[&str],
    out: &mut Vec<u8>,
) -> Result<(), Fault> {
    let [bytes, len, result_of] = arguments else {
        return Err(Fault::NoCase);
    };
    let mut bytes = bytes_of(alloc, bytes)?;
    let result_of = match *result_of {
        "Ok" => Ok(()),
        "Form" => Err(WireFault::Form),
        _ => return Err(Fault::NoCase),
    };
    match truncate_on_error(result_of, len_of(len)?, &mut bytes) {
        Ok(()) => put_text("Ok ", out)?,
        Err(fault) => done(write!(out, "{fault:?} "))?,
    }
    put_bytes(&bytes, out)
}
