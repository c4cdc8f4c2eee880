//! The words of a case, the words of a result, and the names of errors.

use events_frames::EventError;
use feed_text::quote;
use rows_errors::RowsError;
use rows_table_map::Bits;
use rows_values::ParseDecimalError;
use std::alloc::{AllocError, AllocFailed, Global};
use std::borrow::CowStr;
use std::io::{self, Write};
use wire_buf::WireFault;
use wire_constants::ColumnType;

/// Why a call has no result.
#[derive(Clone, Copy, Debug)]
pub(crate) enum Fault {
    /// An error of rows, values and documents.
    Rows(RowsError),
    /// An error in a decimal's text.
    Decimal(ParseDecimalError),
    /// An error of a field.
    Wire(WireFault),
    /// An error of events.
    Event(EventError),
    /// The line isn't a case.
    NoCase,
}

impl From<RowsError> for Fault {
    fn from(fault: RowsError) -> Fault {
        Fault::Rows(fault)
    }
}

impl From<ParseDecimalError> for Fault {
    fn from(fault: ParseDecimalError) -> Fault {
        Fault::Decimal(fault)
    }
}

impl From<WireFault> for Fault {
    fn from(fault: WireFault) -> Fault {
        Fault::Wire(fault)
    }
}

impl From<EventError> for Fault {
    fn from(fault: EventError) -> Fault {
        Fault::Event(fault)
    }
}

impl From<AllocError> for Fault {
    fn from(_: AllocError) -> Fault {
        Fault::Rows(RowsError::Memory)
    }
}

impl<T: Drop> From<AllocFailed<T>> for Fault {
    fn from(_: AllocFailed<T>) -> Fault {
        Fault::Rows(RowsError::Memory)
    }
}

/// Converts the result of `write!` into a `Vec`: its only error is out of memory.
pub(crate) fn done(written: io::Result<()>) -> Result<(), Fault> {
    match written {
        Ok(()) => Ok(()),
        Err(_) => Err(Fault::Rows(RowsError::Memory)),
    }
}

/// Appends the name of an error.
pub(crate) fn put_error(fault: Fault, out: &mut Vec<u8>) -> Result<(), Fault> {
    let written = match fault {
        Fault::Rows(fault) => write!(out, "{fault:?}"),
        Fault::Decimal(fault) => write!(out, "{fault:?}"),
        Fault::Wire(fault) => write!(out, "{fault:?}"),
        Fault::Event(fault) => write!(out, "{fault:?}"),
        Fault::NoCase => write!(out, "NoCase"),
    };
    done(written)
}

/// Appends a text.
pub(crate) fn put_text(text: &str, out: &mut Vec<u8>) -> Result<(), Fault> {
    Ok(out.extend_from_slice(text.as_bytes())?)
}

/// Appends a number.
pub(crate) fn put_number(number: u64, out: &mut Vec<u8>) -> Result<(), Fault> {
    done(write!(out, "{number}"))
}

/// Appends a space and a number, or the name of the error.
pub(crate) fn put_item(item: Result<u64, RowsError>, out: &mut Vec<u8>) -> Result<(), Fault> {
    out.push(b' ')?;
    match item {
        Ok(number) => put_number(number, out),
        Err(fault) => put_error(Fault::Rows(fault), out),
    }
}

/// Appends a digit for each bit, or `''` if there are none.
pub(crate) fn put_bits(bits: Bits<'_>, out: &mut Vec<u8>) -> Result<(), Fault> {
    if bits.is_empty() {
        return put_text("''", out);
    }
    for bit in bits.iter() {
        out.push(if bit { b'1' } else { b'0' })?;
    }
    Ok(())
}

/// Appends bytes between quotes, and their text if it differs.
pub(crate) fn put_name(
    bytes: &[u8],
    text: CowStr<'_, Global>,
    out: &mut Vec<u8>,
) -> Result<(), Fault> {
    quote(bytes, out)?;
    if text.as_str().as_bytes() == bytes {
        return Ok(());
    }
    put_text(" as text ", out)?;
    Ok(quote(text.as_str().as_bytes(), out)?)
}

/// The hexadecimal digits, by their values.
const DIGITS: &[u8] = b"0123456789abcdef";

/// The hexadecimal digit of a number below 16.
fn digit_of(number: u8) -> u8 {
    match DIGITS.get(usize::from(number)) {
        Some(digit) => *digit,
        None => b'?',
    }
}

/// Appends the hexadecimal digits of bytes, or `''` if there are none.
pub(crate) fn put_bytes(bytes: &[u8], out: &mut Vec<u8>) -> Result<(), Fault> {
    if bytes.is_empty() {
        return put_text("''", out);
    }
    for byte in bytes {
        out.push(digit_of(*byte >> 4))?;
        out.push(digit_of(*byte & 15))?;
    }
    Ok(())
}

/// Appends ` before ` and the hexadecimal digits of the remaining bytes, if there are any.
pub(crate) fn put_rest(rest: &[u8], out: &mut Vec<u8>) -> Result<(), Fault> {
    if rest.is_empty() {
        return Ok(());
    }
    put_text(" before ", out)?;
    put_bytes(rest, out)
}

/// Appends the bytes that were written, if they differ from those that were read.
pub(crate) fn put_written(written: &[u8], bytes: &[u8], out: &mut Vec<u8>) -> Result<(), Fault> {
    if written == bytes {
        return Ok(());
    }
    put_text(" written ", out)?;
    put_bytes(written, out)
}

/// Appends the name of a column type.
pub(crate) fn put_type(column_type: ColumnType, out: &mut Vec<u8>) -> Result<(), Fault> {
    done(write!(out, "{column_type:?}"))
}

/// The value of a hexadecimal digit.
fn digit(byte: u8) -> Option<u8> {
    match byte {
        b'0'..=b'9' => Some(byte - b'0'),
        b'a'..=b'f' => Some(byte - b'a' + 10),
        _ => None,
    }
}

/// Appends the bytes of hexadecimal digits.
fn put_hex_bytes(digits: &[u8], out: &mut Vec<u8>) -> Result<(), Fault> {
    for pair in digits.chunks(2) {
        let [high, low] = pair else {
            return Err(Fault::NoCase);
        };
        let (Some(high), Some(low)) = (digit(*high), digit(*low)) else {
            return Err(Fault::NoCase);
        };
        out.push((high & 15) * 16 + (low & 15))?;
    }
    Ok(())
}

/// Appends the bytes of hexadecimal digits, or one byte as often as the number after a `*` says.
fn put_digits(alloc: Global, digits: &str, out: &mut Vec<u8>) -> Result<(), Fault> {
    let Some((digits, count)) = digits.split_once('*') else {
        return put_hex_bytes(digits.as_bytes(), out);
    };
    let mut repeated = Vec::new(alloc);
    put_hex_bytes(digits.as_bytes(), &mut repeated)?;
    let ([byte], Ok(count)) = (repeated.as_slice(), usize::try_from(number_of(count)?)) else {
        return Err(Fault::NoCase);
    };
    Ok(out.resize(out.len() + count, *byte)?)
}

/// The bytes of a word: hexadecimal digits, with plain text between quotes; `00*5` is five bytes 0.
pub(crate) fn bytes_of(alloc: Global, word: &str) -> Result<Vec<u8>, Fault> {
    let mut bytes = Vec::new(alloc);
    let mut is_text = false;
    for piece in word.split('\'') {
        if is_text {
            bytes.extend_from_slice(piece.as_bytes())?;
        } else {
            for digits in piece.split('_') {
                put_digits(alloc, digits, &mut bytes)?;
            }
        }
        is_text = !is_text;
    }
    Ok(bytes)
}

/// The bytes of a case with one argument.
pub(crate) fn only_bytes_of(alloc: Global, arguments: &[&str]) -> Result<Vec<u8>, Fault> {
    let [bytes] = arguments else {
        return Err(Fault::NoCase);
    };
    bytes_of(alloc, bytes)
}

/// The number of a word in decimal digits.
pub(crate) fn number_of(word: &str) -> Result<u64, Fault> {
    match word.parse::<u64>() {
        Ok(number) => Ok(number),
        Err(_) => Err(Fault::NoCase),
    }
}

/// The number below 256 of a word in decimal digits.
pub(crate) fn byte_of(word: &str) -> Result<u8, Fault> {
    match u8::try_from(number_of(word)?) {
        Ok(number) => Ok(number),
        Err(_) => Err(Fault::NoCase),
    }
}

/// The length below 256 of a word in decimal digits.
pub(crate) fn small_len_of(word: &str) -> Result<usize, Fault> {
    Ok(usize::from(byte_of(word)?))
}
