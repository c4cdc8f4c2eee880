//! Decimals.

use crate::words::{
    Fault, byte_of, bytes_of, done, only_bytes_of, put_bytes, put_error, put_rest, put_text,
};
use feed_text::put_decimal;
use rows_errors::RowsError;
use rows_values::{Decimal, ParseDecimalError, decimal_numbers, put_decimal_text};
use std::alloc::Global;
use std::io::Write;
use std::str;

/// Appends the text of the decimal, from its copy; `append_text` and `to_string` must give the same text.
fn put_shown(alloc: Global, decimal: &Decimal, out: &mut Vec<u8>) -> Result<(), Fault> {
    let copy = decimal.clone(alloc)?;
    let shown = copy.to_string(alloc)?;
    let from = out.len();
    decimal.append_text(out)?;
    if copy != *decimal || out.get(from..) != Some(shown.as_str().as_bytes()) {
        put_text(" or ", out)?;
        out.extend_from_slice(shown.as_str().as_bytes())?;
    }
    Ok(())
}

/// The decimal of a text, parsed by the call.
fn parsed(alloc: Global, call: &str, text: &[u8]) -> Result<Decimal, ParseDecimalError> {
    match call {
        "parse_bytes" => Decimal::parse_bytes(alloc, text),
        "parse_str_bytes" => Decimal::parse_str_bytes(alloc, text),
        _ => match str::from_utf8(text) {
            Ok(text) => Decimal::from_str(alloc, text),
            Err(_) => Err(ParseDecimalError::Text),
        },
    }
}

/// `from_str TEXT`, `parse_bytes TEXT`, `parse_str_bytes TEXT`: the text of the decimal that is parsed.
pub(crate) fn put_parsed(
    alloc: Global,
    call: &str,
    arguments: &[&str],
    out: &mut Vec<u8>,
) -> Result<(), Fault> {
    put_shown(
        alloc,
        &parsed(alloc, call, &only_bytes_of(alloc, arguments)?)?,
        out,
    )
}

/// The precision, the scale and the bytes of a case.
fn shape_and_bytes(alloc: Global, arguments: &[&str]) -> Result<(u8, u8, Vec<u8>), Fault> {
    let [precision, scale, bytes] = arguments else {
        return Err(Fault::NoCase);
    };
    Ok((
        byte_of(precision)?,
        byte_of(scale)?,
        bytes_of(alloc, bytes)?,
    ))
}

/// Whether the decimal that the bytes pack, with its leading zeros, is written as the same bytes. A decimal of no digits is
/// written as one digit.
fn is_written_back(alloc: Global, precision: u8, scale: u8, bytes: &[u8]) -> bool {
    if precision == 0 {
        return true;
    }
    let mut out = Vec::new(alloc);
    match Decimal::from_bin(
        alloc,
        bytes,
        usize::from(precision),
        usize::from(scale),
        true,
    ) {
        Ok(decimal) => decimal.write_bin(alloc, &mut out) == Ok(()) && out.as_slice() == bytes,
        Err(_) => true,
    }
}

/// Whether `put_decimal_text` writes this text for the bytes, or returns an error if there is none.
fn is_put(precision: u8, scale: u8, bytes: &[u8], wanted: Option<&[u8]>) -> bool {
    if precision > 65 {
        return true;
    }
    let mut text = [b'x'; 80];
    let end = put_decimal_text(
        &mut text,
        2,
        usize::from(precision),
        usize::from(scale),
        bytes,
    );
    match end {
        Some(end) => text.get(2..end) == wanted && text.get(..2) == Some(b"xx".as_slice()),
        None => wanted.is_none(),
    }
}

/// Whether `feed_text::put_decimal` appends this text, quoted, or returns an error if there is none.
fn is_quoted(alloc: Global, shape: (u8, u8), bytes: &[u8], wanted: Option<&[u8]>) -> bool {
    let mut out = Vec::new(alloc);
    let put = put_decimal(bytes, shape.0, shape.1, &mut out);
    match wanted {
        Some(wanted) => put == Ok(()) && out.get(1..out.len().saturating_sub(1)) == Some(wanted),
        None => put == Err(RowsError::Decimal) && out.is_empty(),
    }
}

/// The text of the decimal that the bytes pack.
fn unpacked_text(alloc: Global, shape: (u8, u8), bytes: &[u8]) -> Result<Vec<u8>, Fault> {
    let (precision, scale) = (usize::from(shape.0), usize::from(shape.1));
    let decimal = Decimal::from_bin(alloc, bytes, precision, scale, false)?;
    let mut text = Vec::new(alloc);
    put_shown(alloc, &decimal, &mut text)?;
    Ok(text)
}

/// `from_bin PRECISION SCALE BYTES`: the text of the decimal that the bytes pack, by `from_bin`, `put_decimal_text` and
/// `put_decimal`, with a remark for each that differs; the decimal must be written as the same bytes.
pub(crate) fn put_from_bin(
    alloc: Global,
    arguments: &[&str],
    out: &mut Vec<u8>,
) -> Result<(), Fault> {
    let (precision, scale, bytes) = shape_and_bytes(alloc, arguments)?;
    let read = unpacked_text(alloc, (precision, scale), &bytes);
    let text = match &read {
        Ok(text) => Some(text.as_slice()),
        Err(_) => None,
    };
    if !is_put(precision, scale, &bytes, text) {
        put_text("otherwise by put_decimal_text ", out)?;
    }
    if !is_quoted(alloc, (precision, scale), &bytes, text) {
        put_text("otherwise by put_decimal ", out)?;
    }
    if !is_written_back(alloc, precision, scale, &bytes) {
        put_text("not written back ", out)?;
    }
    match read {
        Ok(text) => Ok(out.extend_from_slice(&text)?),
        Err(fault) => put_error(fault, out),
    }
}

/// `read_bin PRECISION SCALE BYTES`: the text of the decimal, or the error, and the bytes that remain then, if any.
pub(crate) fn put_read_bin(
    alloc: Global,
    arguments: &[&str],
    out: &mut Vec<u8>,
) -> Result<(), Fault> {
    let (precision, scale, bytes) = shape_and_bytes(alloc, arguments)?;
    let mut input = bytes.as_slice();
    match Decimal::read_bin(
        alloc,
        &mut input,
        usize::from(precision),
        usize::from(scale),
        false,
    ) {
        Ok(decimal) => put_shown(alloc, &decimal, out)?,
        Err(fault) => put_error(Fault::Rows(fault), out)?,
    }
    put_rest(input, out)
}

/// `from_packed BYTES`: the text of a decimal as packed in a JSON document, by `from_packed` and `read_packed`.
pub(crate) fn put_from_packed(
    alloc: Global,
    arguments: &[&str],
    out: &mut Vec<u8>,
) -> Result<(), Fault> {
    let bytes = only_bytes_of(alloc, arguments)?;
    let decimal = Decimal::from_packed(alloc, &bytes, false)?;
    let read = Decimal::read_packed(alloc, &mut bytes.as_slice(), false)?;
    if read != decimal {
        put_text("otherwise by read_packed ", out)?;
    }
    put_shown(alloc, &decimal, out)
}

/// `write_bin TEXT`: the packed bytes of the decimal of a text, in hexadecimal, as many as `bin_size` returns.
pub(crate) fn put_written(
    alloc: Global,
    arguments: &[&str],
    out: &mut Vec<u8>,
) -> Result<(), Fault> {
    let decimal = parsed(alloc, "parse_bytes", &only_bytes_of(alloc, arguments)?)?;
    let mut packed = Vec::new(alloc);
    if decimal.write_bin(alloc, &mut packed).is_err() || decimal.bin_size() != packed.len() {
        put_text("of another size ", out)?;
    }
    put_bytes(&packed, out)
}

/// `decimal_numbers PRECISION SCALE BYTES`: the sign, the number before the point and the number after it, or `none`.
pub(crate) fn put_numbers(
    alloc: Global,
    arguments: &[&str],
    out: &mut Vec<u8>,
) -> Result<(), Fault> {
    let (precision, scale, bytes) = shape_and_bytes(alloc, arguments)?;
    let written = match decimal_numbers(usize::from(precision), usize::from(scale), &bytes) {
        Some(it) => write!(
            out,
            "{} {} {}",
            if it.negative { '-' } else { '+' },
            it.before,
            it.after
        ),
        None => write!(out, "none"),
    };
    done(written)
}

/// `cmp TEXT TEXT`: the order of the decimals of two texts.
pub(crate) fn put_order(alloc: Global, arguments: &[&str], out: &mut Vec<u8>) -> Result<(), Fault> {
    let [one, other] = arguments else {
        return Err(Fault::NoCase);
    };
    let one = parsed(alloc, "from_str", &bytes_of(alloc, one)?)?;
    let other = parsed(alloc, "from_str", &bytes_of(alloc, other)?)?;
    let order = one.cmp(&other);
    if other.cmp(&one) != order.reverse()
        || (one == other) != order.is_eq()
        || (one < other) != order.is_lt()
    {
        put_text("not in one order ", out)?;
    }
    done(write!(out, "{order:?}"))
}
