//! The words of the wire layer's cases: long bytes, and numbers with a sign.

use crate::words::{Fault, number_of, put_bytes, put_number, put_text};

/// The shortest run of equal bytes that is shown as one byte and a count.
const RUN: usize = 16;

/// The number of bytes that equal the first one, without another byte between. The first ones are compared with as many after
/// them, which doubles them, and then with half as many each time.
fn run_of(bytes: &[u8]) -> usize {
    let mut run = bytes.len().min(1);
    let mut step = run;
    let mut grows = true;
    for _ in 0..128 {
        if step == 0 {
            break;
        }
        let is_same = bytes.get(run..run + step) == bytes.get(..step);
        if is_same {
            run += step;
        }
        grows = grows && is_same;
        step = if grows { run } else { step / 2 };
    }
    run
}

/// Appends the hexadecimal digits of bytes; a run of sixteen equal bytes or more is a piece of its own, as in a case.
pub(crate) fn put_long_bytes(bytes: &[u8], out: &mut Vec<u8>) -> Result<(), Fault> {
    if bytes.is_empty() {
        return put_bytes(bytes, out);
    }
    let (mut rest, mut is_joined) = (bytes, true);
    for _ in 0..bytes.len() {
        let (run, after) = rest.split_at(run_of(rest));
        let is_long = run.len() >= RUN;
        if !is_joined || (is_long && rest.len() < bytes.len()) {
            out.push(b'_')?;
        }
        put_bytes(if is_long { &run[..1] } else { run }, out)?;
        if is_long {
            out.push(b'*')?;
            put_number(run.len() as u64, out)?;
        }
        (rest, is_joined) = (after, !is_long);
        if rest.is_empty() {
            break;
        }
    }
    Ok(())
}

/// Appends ` before ` and the remaining bytes, if there are any.
pub(crate) fn put_long_rest(rest: &[u8], out: &mut Vec<u8>) -> Result<(), Fault> {
    if rest.is_empty() {
        return Ok(());
    }
    put_text(" before ", out)?;
    put_long_bytes(rest, out)
}

/// The number of a word in decimal digits, with a sign if it is negative.
pub(crate) fn signed_of(word: &str) -> Result<i128, Fault> {
    match word.parse::<i128>() {
        Ok(number) => Ok(number),
        Err(_) => Err(Fault::NoCase),
    }
}

/// The length of a word in decimal digits.
pub(crate) fn len_of(word: &str) -> Result<usize, Fault> {
    Ok(number_of(word)? as usize)
}

/// The name and the argument of a word `NAME:ARGUMENT`; without a `:` the argument is empty.
pub(crate) fn name_and_argument(word: &str) -> (&str, &str) {
    word.split_once(':').unwrap_or((word, ""))
}
