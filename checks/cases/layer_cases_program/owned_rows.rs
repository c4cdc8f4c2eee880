//! Owned rows: their values, the columns of these, and the rows of plain values that they become.

use crate::json_values;
use crate::plain_values::value_of;
use crate::wire_constants::narrow;
use crate::wire_words::{len_of, name_and_argument};
use crate::words::{Fault, done, put_number, put_text};
use feed_text::put_value;
use rows_cells::{BinlogValue, CellFormat, ImageColumn, Width};
use rows_event_body::BinlogRow;
use rows_jsonb::Value as JsonbValue;
use rows_values::Column;
use std::alloc::Global;
use std::io::Write;
use std::rc::RcSlice;
use wire_constants::ColumnType;

/// A value of a row, or None.
type Cell = Option<BinlogValue<'static>>;

/// The value of a word: `none`, `diffs` for no diffs, `json:5` for the document 5, or a plain value.
fn cell_of(alloc: Global, word: &str) -> Result<Cell, Fault> {
    match name_and_argument(word) {
        ("none", "") => Ok(None),
        ("diffs", "") => Ok(Some(BinlogValue::JsonDiff(Vec::new(alloc)))),
        ("json", number) => Ok(Some(BinlogValue::Jsonb(JsonbValue::I16(narrow(number)?)))),
        _ => Ok(Some(BinlogValue::Value(value_of(alloc, word)?))),
    }
}

/// The row with the values of a word, which have `;` between them; `empty` has none. After an `@` a value has the index of its
/// column.
fn row_of(alloc: Global, word: &str) -> Result<BinlogRow, Fault> {
    let (mut values, mut image, mut columns) = (Vec::new(alloc), Vec::new(alloc), Vec::new(alloc));
    for piece in word.split(';') {
        if piece == "empty" {
            continue;
        }
        let (value, column) = match piece.split_once('@') {
            Some((value, column)) => (value, Some(narrow::<u32>(column)?)),
            None => (piece, None),
        };
        values.push(cell_of(alloc, value)?)?;
        columns.push(Column::new(alloc, ColumnType::MYSQL_TYPE_LONG))?;
        if let Some(column) = column {
            image.push(ImageColumn {
                column,
                format: CellFormat::Signed(Width::Four),
                json_column: 0,
            })?;
        }
    }
    let columns = RcSlice::from_vec(columns)?;
    if image.is_empty() {
        return Ok(BinlogRow::new(values, columns));
    }
    if image.len() != values.len() {
        return Err(Fault::NoCase);
    }
    Ok(BinlogRow::of_image(values, columns, RcSlice::from_vec(image)?))
}

/// Appends a value: a plain one by its text, a document after `json`, the number of diffs after `diffs`, or `none`.
pub(crate) fn put_cell(
    alloc: Global,
    cell: Option<&BinlogValue<'_>>,
    out: &mut Vec<u8>,
) -> Result<(), Fault> {
    match cell {
        Some(BinlogValue::Value(value)) => Ok(put_value(value, out)?),
        Some(BinlogValue::Jsonb(value)) => {
            put_text("json ", out)?;
            json_values::put_value(alloc, value, out)
        }
        Some(BinlogValue::JsonDiff(diffs)) => done(write!(out, "diffs {}", diffs.len())),
        None => put_text("none", out),
    }
}

/// Appends the number of values, and each value with its column's index before it; there may be none after them.
pub(crate) fn put_cells(alloc: Global, row: &BinlogRow, out: &mut Vec<u8>) -> Result<(), Fault> {
    put_number(row.len() as u64, out)?;
    put_text(" values", out)?;
    for index in 0..row.len() {
        done(write!(out, " {}=", row.place(index)))?;
        put_cell(alloc, row.as_ref(index), out)?;
    }
    if row.as_ref(row.len()).is_some() || row.is_empty() != (row.len() == 0) {
        put_text(" and more", out)?;
    }
    match row.columns() {
        Ok(columns) if columns.as_slice() == row.columns_ref() => {
            done(write!(out, " of {} columns", columns.len()))
        }
        _ => put_text(" of other columns", out),
    }
}

/// Appends whether both rows are equal.
fn put_equal(row: &BinlogRow, other: &BinlogRow, out: &mut Vec<u8>) -> Result<(), Fault> {
    let is_same = *row == *other;
    if is_same == (*row != *other) || is_same != (*other == *row) {
        put_text("not the other way round ", out)?;
    }
    put_text(if is_same { "equal" } else { "different" }, out)
}

/// Appends the values that a row consists of.
fn put_unwrapped(alloc: Global, row: BinlogRow, out: &mut Vec<u8>) -> Result<(), Fault> {
    for index in 0..row.len() {
        if row.as_ref(index).is_none() {
            return Err(Fault::NoCase);
        }
    }
    let values = row.unwrap(alloc)?;
    put_number(values.len() as u64, out)?;
    put_text(" unwrapped", out)?;
    for value in &values {
        out.push(b' ')?;
        put_cell(alloc, Some(value), out)?;
    }
    Ok(())
}

/// Appends the plain values of a row and the number of its columns, or the error and its text.
fn put_plain(alloc: Global, row: BinlogRow, out: &mut Vec<u8>) -> Result<(), Fault> {
    let plain = match row.into_row(alloc) {
        Ok(plain) => plain,
        Err(error) => return done(write!(out, "{error:?}: {error}")),
    };
    put_number(plain.len() as u64, out)?;
    put_text(" plain", out)?;
    for index in 0..plain.len() {
        out.push(b' ')?;
        match plain.as_ref(index) {
            Some(value) => put_value(value, out)?,
            None => put_text("none", out)?,
        }
    }
    done(write!(out, " of {} columns", plain.columns_ref().len()))
}

/// Appends what a step on a row gives: `take:1` is its second value, `equals:ROW` whether it equals another row.
fn put_step(
    alloc: Global,
    row: &mut BinlogRow,
    step: &str,
    out: &mut Vec<u8>,
) -> Result<(), Fault> {
    match name_and_argument(step) {
        ("take", index) => {
            let taken = row.take(len_of(index)?);
            put_cell(alloc, taken.as_ref(), out)
        }
        ("equals", other) => put_equal(row, &row_of(alloc, other)?, out),
        ("all", "") => put_cells(alloc, row, out),
        _ => Err(Fault::NoCase),
    }
}

/// `owned_row VALUES STEP ..`: what each step on a row with these values gives, with `, ` between them. The last step may be
/// `unwrap` or `into_row`.
pub(crate) fn put_owned_row(
    alloc: Global,
    arguments: &[&str],
    out: &mut Vec<u8>,
) -> Result<(), Fault> {
    let [values, steps @ ..] = arguments else {
        return Err(Fault::NoCase);
    };
    let mut row = row_of(alloc, values)?;
    for step in steps {
        if !out.is_empty() {
            put_text(", ", out)?;
        }
        match *step {
            "unwrap" => return put_unwrapped(alloc, row, out),
            "into_row" => return put_plain(alloc, row, out),
            _ => put_step(alloc, &mut row, step, out)?,
        }
    }
    Ok(())
}
