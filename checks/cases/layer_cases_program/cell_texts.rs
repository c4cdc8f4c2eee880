//! The contents of cells by format, and the texts of cells in buffers.

use crate::wire_constants::narrow;
use crate::wire_words::name_and_argument;
use crate::words::{
    Fault, byte_of, bytes_of, done, number_of, put_bytes, put_error, put_number, put_rest, put_text,
};
use feed_text::{TextBuffer, put_cell_ref};
use rows_cells::{CellFormat, CellRef, ImageCells, ImageColumn, ImagePlan, Width, read_bytes, read_cell, read_datetime, read_signed, read_time, read_unsigned, split_decimal};
use rows_errors::RowsError;
use std::alloc::Global;
use std::io::Write;

/// The width of a word: a number of bytes.
fn width_of(word: &str) -> Result<Width, Fault> {
    match word {
        "1" => Ok(Width::One),
        "2" => Ok(Width::Two),
        "3" => Ok(Width::Three),
        "4" => Ok(Width::Four),
        "8" => Ok(Width::Eight),
        _ => Err(Fault::NoCase),
    }
}

/// The precision and the scale of a word, with a `.` between them.
fn precision_and_scale(word: &str) -> Result<(u8, u8), Fault> {
    match word.split_once('.') {
        Some((precision, scale)) => Ok((byte_of(precision)?, byte_of(scale)?)),
        None => Err(Fault::NoCase),
    }
}

/// The format of a word: its name, `:` and its width, its precision and scale, or its number of fractional digits.
fn format_of(word: &str) -> Result<CellFormat, Fault> {
    match name_and_argument(word) {
        ("signed", width) => Ok(CellFormat::Signed(width_of(width)?)),
        ("unsigned", width) => Ok(CellFormat::Unsigned(width_of(width)?)),
        ("counted", width) => Ok(CellFormat::Counted(width_of(width)?)),
        ("datetime2", decimals) => Ok(CellFormat::Datetime2(byte_of(decimals)?)),
        ("time2", decimals) => Ok(CellFormat::Time2(byte_of(decimals)?)),
        ("decimal", numbers) => {
            let (precision, scale) = precision_and_scale(numbers)?;
            Ok(CellFormat::Decimal(precision, scale))
        }
        _ => Err(Fault::NoCase),
    }
}

/// Appends a number and the bytes after it.
fn put_number_and_rest(
    read: Result<(i64, &[u8]), RowsError>,
    out: &mut Vec<u8>,
) -> Result<(), Fault> {
    let (number, rest) = read?;
    done(write!(out, "{number}"))?;
    put_rest(rest, out)
}

/// Appends bytes and the bytes after them.
fn put_bytes_and_rest(
    read: Result<(&[u8], &[u8]), RowsError>,
    out: &mut Vec<u8>,
) -> Result<(), Fault> {
    let (bytes, rest) = read?;
    put_bytes(bytes, out)?;
    put_rest(rest, out)
}

/// Appends a cell by its kind, and the bytes after it.
fn put_cell_and_rest(
    read: Result<(CellRef<'_>, &[u8]), RowsError>,
    out: &mut Vec<u8>,
) -> Result<(), Fault> {
    let (cell, rest) = read?;
    done(write!(out, "{cell:?}"))?;
    put_rest(rest, out)
}

/// `content CALL BYTES`: what the call for the contents of cells reads, and the bytes after it. After a `:` the call has a
/// width, a number of fractional digits, a precision and a scale, or for `cell` a format.
pub(crate) fn put_content(
    alloc: Global,
    arguments: &[&str],
    out: &mut Vec<u8>,
) -> Result<(), Fault> {
    let [word, bytes] = arguments else {
        return Err(Fault::NoCase);
    };
    let bytes = bytes_of(alloc, bytes)?;
    match name_and_argument(word) {
        ("signed", width) => put_number_and_rest(read_signed(&bytes, width_of(width)?), out),
        ("unsigned", width) => put_cell_and_rest(read_unsigned(&bytes, width_of(width)?), out),
        ("bytes", width) => put_bytes_and_rest(read_bytes(&bytes, width_of(width)?), out),
        ("time", decimals) => put_number_and_rest(read_time(&bytes, byte_of(decimals)?), out),
        ("datetime", decimals) => {
            put_number_and_rest(read_datetime(&bytes, byte_of(decimals)?), out)
        }
        ("decimal", numbers) => {
            let (precision, scale) = precision_and_scale(numbers)?;
            put_bytes_and_rest(split_decimal(&bytes, precision, scale), out)
        }
        ("cell", format) => put_cell_and_rest(read_cell(format_of(format)?, &bytes), out),
        _ => Err(Fault::NoCase),
    }
}

/// The cell of a kind with these bytes.
fn cell_of<'a>(word: &str, bytes: &'a [u8]) -> Result<CellRef<'a>, Fault> {
    match name_and_argument(word) {
        ("json", "") => Ok(CellRef::Json(bytes)),
        ("diffs", "") => Ok(CellRef::JsonDiffs(bytes)),
        ("bytes", "") => Ok(CellRef::Bytes(bytes)),
        ("int", number) => Ok(CellRef::Int(narrow(number)?)),
        ("decimal", numbers) => {
            let (precision, scale) = precision_and_scale(numbers)?;
            Ok(CellRef::Decimal(precision, scale, bytes))
        }
        _ => Err(Fault::NoCase),
    }
}

/// Why a cell has no value, or None if it has one.
fn no_value(alloc: Global, cell: CellRef<'_>) -> Option<RowsError> {
    match cell.to_value(alloc) {
        Ok(value) => {
            drop(value);
            None
        }
        Err(fault) => Some(fault),
    }
}

/// `cell_text KIND BYTES`: the text of the cell of column 7 after an `a`, by a buffer and by `put_cell_ref`, which must agree;
/// or the error, after `with a value` if the value hasn't that error too, and the text, which must then be only the `a`.
pub(crate) fn put_cell_text(
    alloc: Global,
    arguments: &[&str],
    out: &mut Vec<u8>,
) -> Result<(), Fault> {
    let [kind, bytes] = arguments else {
        return Err(Fault::NoCase);
    };
    let bytes = bytes_of(alloc, bytes)?;
    let cell = cell_of(kind, &bytes)?;
    let (mut buffer, mut text) = (TextBuffer::new(alloc), Vec::from_slice(alloc, b"a")?);
    buffer.put(b'a')?;
    let put = buffer.put_cell(alloc, 7, cell);
    if put_cell_ref(alloc, 7, cell, &mut text) != put || text.as_slice() != buffer.as_slice() {
        put_text("otherwise by put_cell_ref ", out)?;
    }
    match (no_value(alloc, cell), put.err()) {
        (one, other) if one == other => {}
        (None, Some(_)) => put_text("with a value ", out)?,
        _ => put_text("otherwise as a value ", out)?,
    }
    if let Err(fault) = put {
        put_error(Fault::Rows(fault), out)?;
        put_text(" after ", out)?;
    }
    Ok(out.extend_from_slice(buffer.as_slice())?)
}

/// The columns of a word: their formats with `,` between them, each after its column's index and a `=`.
fn columns_of(alloc: Global, word: &str) -> Result<Vec<ImageColumn>, Fault> {
    let mut columns = Vec::new(alloc);
    for piece in word.split(',') {
        let Some((column, format)) = piece.split_once('=') else {
            return Err(Fault::NoCase);
        };
        columns.push(ImageColumn {
            column: narrow(column)?,
            format: format_of(format)?,
            json_column: 0,
        })?;
    }
    Ok(columns)
}

/// Appends the cells of an image one by one, as far as they can be read.
fn put_one_by_one(
    alloc: Global,
    mut cells: ImageCells<'_, '_>,
    text: &mut Vec<u8>,
) -> Result<(), Fault> {
    for _ in 0..cells.len() {
        if let Ok(Some((column, cell))) = cells.next_cell() {
            put_cell_ref(alloc, column, cell, text)?;
        }
    }
    Ok(())
}

/// `image_text COLUMNS BYTES`: the text of the cells of an image with these columns, in a buffer after an `a`, and the bytes
/// after the image. The cells one by one must have the same text. If a cell is incomplete: the error, the text, which must then
/// be only the `a`, and the number of bytes of the cells, all of which remain.
pub(crate) fn put_image_text(
    alloc: Global,
    arguments: &[&str],
    out: &mut Vec<u8>,
) -> Result<(), Fault> {
    let [columns, bytes] = arguments else {
        return Err(Fault::NoCase);
    };
    let (columns, bytes) = (columns_of(alloc, columns)?, bytes_of(alloc, bytes)?);
    let plan = ImagePlan {
        columns: &columns,
        json_columns: None,
    };
    let mut cells = ImageCells::of(plan, &bytes)?;
    let (mut buffer, mut text) = (TextBuffer::new(alloc), Vec::from_slice(alloc, b"a")?);
    buffer.put(b'a')?;
    put_one_by_one(alloc, cells, &mut text)?;
    if let Err(fault) = buffer.put_cells(alloc, &mut cells) {
        put_error(Fault::Rows(fault), out)?;
        done(write!(out, " before {} bytes after ", cells.rest().len()))?;
        return Ok(out.extend_from_slice(buffer.as_slice())?);
    }
    out.extend_from_slice(buffer.as_slice())?;
    if text.as_slice() != buffer.as_slice() {
        put_text(" otherwise one by one", out)?;
    }
    put_rest(cells.rest(), out)
}

/// Appends to a buffer what a step says.
fn put_step(alloc: Global, step: &str, buffer: &mut TextBuffer<Global>) -> Result<(), Fault> {
    let (call, argument) = name_and_argument(step);
    match call {
        "number" => buffer.put_number(number_of(argument)?)?,
        "two_quoted" => {
            let (first, second) = argument.split_once(',').unwrap_or((argument, ""));
            buffer.put_two_quoted(&bytes_of(alloc, first)?, &bytes_of(alloc, second)?)?
        }
        "text" => buffer.put_text(&bytes_of(alloc, argument)?)?,
        "quoted" => buffer.put_quoted(&bytes_of(alloc, argument)?)?,
        "hexadecimal" => buffer.put_hexadecimal(&bytes_of(alloc, argument)?)?,
        "byte" => match bytes_of(alloc, argument)?.as_slice() {
            [byte] => buffer.put(*byte)?,
            _ => return Err(Fault::NoCase),
        },
        _ => return Err(Fault::NoCase),
    }
    Ok(())
}

/// `text_buffer STEP ..`: the text of a buffer after these calls, each with its bytes or its number after a `:`.
pub(crate) fn put_buffer(
    alloc: Global,
    arguments: &[&str],
    out: &mut Vec<u8>,
) -> Result<(), Fault> {
    let mut buffer = TextBuffer::new(alloc);
    for step in arguments {
        put_step(alloc, step, &mut buffer)?;
    }
    out.extend_from_slice(buffer.as_slice())?;
    if buffer.len() != buffer.as_slice().len() {
        put_number(buffer.len() as u64, out)?;
        put_text(" is another length", out)?;
    }
    Ok(())
}
