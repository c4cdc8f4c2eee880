//! The rows of an event, by each way of reading them.

use crate::tables::Table;
use crate::words::{Fault, put_error};
use feed_text::{TextBuffer, put_cell, put_cell_ref};
use rows_errors::RowsError;
use rows_event_body::{BinlogRow, BinlogRowCtx, ColumnPlan, EventColumns, RowsEvent, RowsEventRows};
use rows_cells::{ImageCells, ImagePlan, RowPart, RowPlan, RowsCursor};
use rows_table_map::Bits;
use std::alloc::Global;
use wire_buf::ParseBuf;

/// A row before and after a change, as far as the event has them.
type Pair = (Option<BinlogRow>, Option<BinlogRow>);

/// The text of an event's rows, with a `;` after each.
#[derive(Drop)]
struct Rows {
    /// The rows, and the cells before an error.
    text: Vec<u8>,
    /// The length of the text of the complete rows.
    whole: usize,
    /// The error that ends the rows early.
    fault: Option<RowsError>,
}

impl Rows {
    /// No rows.
    fn new(alloc: Global) -> Rows {
        Rows {
            text: Vec::new(alloc),
            whole: 0,
            fault: None,
        }
    }

    /// No rows before these bytes, and the error.
    fn before(alloc: Global, bytes: &[u8], fault: RowsError) -> Rows {
        let mut rows = Rows::new(alloc);
        if !bytes.is_empty() {
            rows.fault = Some(fault);
        }
        rows
    }

    /// Ends a row.
    fn end_row(&mut self) -> Result<(), RowsError> {
        self.text.push(b';')?;
        self.whole = self.text.len();
        Ok(())
    }

    /// Appends the text of a row.
    fn put_row(&mut self, text: &[u8]) -> Result<(), RowsError> {
        self.text.extend_from_slice(text)?;
        self.end_row()
    }

    /// Keeps the error of a part or of a row, if it has one.
    fn keep(&mut self, put: Result<(), RowsError>) {
        if let Err(fault) = put {
            self.fault = Some(fault);
        }
    }

    /// Makes the rows differ from all other ones.
    fn spoil(&mut self) {
        self.whole = usize::MAX;
    }
}

/// Whether both have the same complete rows and the same error.
fn are_same(one: &Rows, other: &Rows) -> bool {
    one.fault == other.fault
        && match (one.text.get(..one.whole), other.text.get(..other.whole)) {
            (Some(text), Some(same)) => text == same,
            _ => false,
        }
}

/// Appends a part of a row.
fn put_part(alloc: Global, part: RowPart<'_>, rows: &mut Rows) -> Result<(), RowsError> {
    match part {
        RowPart::Cell(column, cell) => put_cell_ref(alloc, column, cell, &mut rows.text),
        RowPart::NextImage => Ok(rows.text.extend_from_slice(b" to")?),
        RowPart::EndOfRow => rows.end_row(),
    }
}

/// Keeps the error of a cursor, which must return it again.
fn keep_end(cursor: &mut RowsCursor<'_, '_>, fault: RowsError, rows: &mut Rows) {
    rows.fault = Some(fault);
    match cursor.next_part() {
        Err(again) if again == fault => {}
        _ => rows.spoil(),
    }
}

/// The rows, read part by part with a cursor.
fn rows_by_parts(alloc: Global, cursor: RowsCursor<'_, '_>) -> Rows {
    let mut cursor = cursor;
    let mut rows = Rows::new(alloc);
    for _ in 0..u64::MAX {
        match cursor.next_part() {
            Ok(Some(part)) => {
                let put = put_part(alloc, part, &mut rows);
                rows.keep(put);
            }
            Ok(None) => break,
            Err(fault) => keep_end(&mut cursor, fault, &mut rows),
        }
        if rows.fault.is_some() {
            break;
        }
    }
    rows
}

/// Appends the cells of an image, and returns the bytes after it.
fn put_image<'a>(
    alloc: Global,
    plan: ImagePlan<'_>,
    bytes: &'a [u8],
    buffer: &mut TextBuffer<Global>,
) -> Result<&'a [u8], RowsError> {
    let mut cells = ImageCells::of(plan, bytes)?;
    buffer.put_cells(alloc, &mut cells)?;
    Ok(cells.rest())
}

/// Appends the images of a row, and returns the bytes after it.
fn put_images<'a>(
    alloc: Global,
    plan: RowPlan<'_>,
    bytes: &'a [u8],
    buffer: &mut TextBuffer<Global>,
) -> Result<&'a [u8], RowsError> {
    let after_first = put_image(alloc, plan.first, bytes, buffer)?;
    let Some(second) = plan.second else {
        return Ok(after_first);
    };
    buffer.put_text(b" to")?;
    put_image(alloc, second, after_first, buffer)
}

/// Appends the row that the bytes begin with, and returns the bytes after it.
fn put_next_row<'a>(
    alloc: Global,
    plan: RowPlan<'_>,
    bytes: &'a [u8],
    rows: &mut Rows,
) -> Result<&'a [u8], RowsError> {
    let mut buffer = TextBuffer::new(alloc);
    match put_images(alloc, plan, bytes, &mut buffer) {
        Ok(rest) if rest.len() == bytes.len() => Err(RowsError::EmptyPair),
        Ok(rest) => match rows.put_row(buffer.as_slice()) {
            Ok(()) => Ok(rest),
            Err(fault) => Err(fault),
        },
        Err(fault) => Err(fault),
    }
}

/// The rows image by image, with each image's cells appended to a buffer together.
fn rows_by_images(alloc: Global, plan: RowPlan<'_>, bytes: &[u8]) -> Rows {
    let mut rows = Rows::new(alloc);
    let mut rest = bytes;
    for _ in 0..bytes.len() {
        if rest.is_empty() || rows.fault.is_some() {
            break;
        }
        match put_next_row(alloc, plan, rest, &mut rows) {
            Ok(after) => rest = after,
            Err(fault) => rows.fault = Some(fault),
        }
    }
    rows
}

/// Appends the cells of a row.
fn put_row(alloc: Global, row: &BinlogRow, text: &mut Vec<u8>) -> Result<(), RowsError> {
    for index in 0..row.len() {
        let column = u32::try_from(row.place(index)).unwrap_or(0);
        if let Some(value) = row.as_ref(index) {
            put_cell(alloc, column, value, text)?;
        }
    }
    Ok(())
}

/// Appends the rows before and after a change.
fn put_pair(alloc: Global, pair: &Pair, rows: &mut Rows) -> Result<(), RowsError> {
    if let Some(before) = &pair.0 {
        put_row(alloc, before, &mut rows.text)?;
    }
    if pair.0.is_some() && pair.1.is_some() {
        rows.text.extend_from_slice(b" to")?;
    }
    if let Some(after) = &pair.1 {
        put_row(alloc, after, &mut rows.text)?;
    }
    rows.end_row()
}

/// Whether the columns of a row are those that the plan defines for these bits.
fn has_columns(
    alloc: Global,
    plan: &ColumnPlan,
    bits: Option<Bits<'_>>,
    row: Option<&BinlogRow>,
) -> bool {
    match (bits, row) {
        (Some(bits), Some(row)) => match plan.definitions(alloc, bits) {
            Ok(columns) => row.columns_ref() == columns.as_slice(),
            Err(_) => false,
        },
        (_, row) => row.is_none(),
    }
}

/// Whether the columns of a pair are those of the event.
fn have_columns(alloc: Global, plan: &ColumnPlan, event: &RowsEvent<'_>, pair: &Pair) -> bool {
    has_columns(alloc, plan, event.columns_before_image(), pair.0.as_ref())
        && has_columns(alloc, plan, event.columns_after_image(), pair.1.as_ref())
}

/// Appends a pair, or keeps its error. The columns of a pair must be those of the event.
fn put_checked_pair(
    alloc: Global,
    plan: &ColumnPlan,
    event: &RowsEvent<'_>,
    pair: &Pair,
    rows: &mut Rows,
) {
    let put = put_pair(alloc, pair, rows);
    rows.keep(put);
    if !have_columns(alloc, plan, event, pair) {
        rows.spoil();
    }
}

/// The owned rows that an iterator returns. After an error it must return nothing.
fn rows_in_memory(
    alloc: Global,
    plan: &ColumnPlan,
    event: &RowsEvent<'_>,
    pairs: RowsEventRows<'_>,
) -> Rows {
    let mut rows = Rows::new(alloc);
    for pair in pairs {
        if rows.fault.is_some() {
            rows.spoil();
        }
        match pair {
            Ok(pair) => put_checked_pair(alloc, plan, event, &pair, &mut rows),
            Err(fault) => rows.fault = Some(fault),
        }
    }
    rows
}

/// The row of an image with these columns, or None if the event has no such image.
fn row_of_image<'a>(
    alloc: Global,
    table: &'a Table<'a>,
    columns: Option<Bits<'a>>,
    has_shared_image: bool,
    buf: &mut ParseBuf<'a>,
) -> Result<Option<BinlogRow>, RowsError> {
    let Some(columns) = columns else {
        return Ok(None);
    };
    let ctx = BinlogRowCtx {
        num_columns: columns.len() as u64,
        columns,
        has_shared_image,
        table_map: &table.map,
    };
    match buf.parse::<BinlogRow>(alloc, ctx) {
        Ok(row) => Ok(Some(row)),
        Err(fault) => Err(fault),
    }
}

/// The next pair of the event, with this row before the change; the row after it is read as a field.
fn pair_after<'a>(
    alloc: Global,
    table: &'a Table<'a>,
    event: &'a RowsEvent<'a>,
    before: Option<BinlogRow>,
    buf: &mut ParseBuf<'a>,
) -> Result<Pair, RowsError> {
    let is_partial = event.images().has_partial_after();
    match row_of_image(alloc, table, event.columns_after_image(), is_partial, buf) {
        Ok(after) => Ok((before, after)),
        Err(fault) => Err(fault),
    }
}

/// The next pair of the event, each row read as a field.
fn next_pair<'a>(
    alloc: Global,
    table: &'a Table<'a>,
    event: &'a RowsEvent<'a>,
    buf: &mut ParseBuf<'a>,
) -> Result<Pair, RowsError> {
    match row_of_image(alloc, table, event.columns_before_image(), false, buf) {
        Ok(before) => pair_after(alloc, table, event, before, buf),
        Err(fault) => Err(fault),
    }
}

/// The rows by their images, read as consecutive fields.
fn rows_by_fields<'a>(alloc: Global, table: &'a Table<'a>, event: &'a RowsEvent<'a>) -> Rows {
    let mut rows = Rows::new(alloc);
    let mut buf = ParseBuf(event.rows_data());
    for _ in 0..event.rows_data().len() {
        let left = buf.len();
        if left == 0 || rows.fault.is_some() {
            break;
        }
        match next_pair(alloc, table, event, &mut buf) {
            Ok(_) if buf.len() == left => rows.fault = Some(RowsError::EmptyPair),
            Ok(pair) => put_checked_pair(alloc, &table.plan, event, &pair, &mut rows),
            Err(fault) => rows.fault = Some(fault),
        }
    }
    rows
}

/// Appends a remark if the rows by another call differ.
fn put_other(call: &[u8], other: Rows, rows: &Rows, out: &mut Vec<u8>) -> Result<(), Fault> {
    if are_same(&other, rows) {
        return Ok(());
    }
    out.extend_from_slice(call)?;
    Ok(out.extend_from_slice(&other.text)?)
}

/// Appends the rows, and the error that ends them.
fn put_result(rows: &Rows, out: &mut Vec<u8>) -> Result<(), Fault> {
    out.extend_from_slice(rows.text.get(1..).unwrap_or(b""))?;
    let Some(fault) = rows.fault else {
        return Ok(());
    };
    if !rows.text.is_empty() {
        out.push(b' ')?;
    }
    put_error(Fault::Rows(fault), out)
}

/// The rows by the plan of the table's columns. For an event without rows, a column without a plan isn't an error.
fn rows_by_plan(alloc: Global, plan: &ColumnPlan, event: &RowsEvent<'_>) -> Rows {
    let mut columns = EventColumns::new(alloc);
    match columns.fill(event, plan) {
        Ok(()) => rows_by_parts(alloc, event.cursor(&columns)),
        Err(fault) => Rows::before(alloc, event.rows_data(), fault),
    }
}

/// The same rows borrowed from the event, as the feed reads them.
fn borrowed_rows(alloc: Global, pairs: &RowsEventRows<'_>) -> Rows {
    let mut columns = EventColumns::new(alloc);
    match pairs.images_in(&mut columns) {
        Ok(plan) => rows_by_images(alloc, plan, pairs.rest()),
        Err(fault) => Rows::before(alloc, pairs.rest(), fault),
    }
}

/// Appends a remark for each way of reading the rows by this iterator that gives other rows: borrowed and owned.
fn put_others(
    alloc: Global,
    plan: &ColumnPlan,
    event: &RowsEvent<'_>,
    pairs: RowsEventRows<'_>,
    rows: &Rows,
    out: &mut Vec<u8>,
) -> Result<(), Fault> {
    put_other(
        b"otherwise by images_in ",
        borrowed_rows(alloc, &pairs),
        rows,
        out,
    )?;
    let owned = rows_in_memory(alloc, plan, event, pairs);
    put_other(b"otherwise in memory ", owned, rows, out)
}

/// Appends the rows, and remarks for the other ways of reading them: by the plan, by the table map, and each image as a field.
fn put_compared(
    alloc: Global,
    table: &Table<'_>,
    event: &RowsEvent<'_>,
    rows: &Rows,
    out: &mut Vec<u8>,
) -> Result<(), Fault> {
    let plan = &table.plan;
    put_others(alloc, plan, event, event.rows_by(alloc, plan), rows, out)?;
    put_others(alloc, plan, event, event.rows(alloc, &table.map), rows, out)?;
    let by_fields = rows_by_fields(alloc, table, event);
    put_other(b"otherwise by fields ", by_fields, rows, out)?;
    put_result(rows, out)
}

/// Appends the rows of an event; the error of the first row that can't be read is after the cells before it.
pub(crate) fn put_rows(
    alloc: Global,
    table: &Table<'_>,
    event: &RowsEvent<'_>,
    out: &mut Vec<u8>,
) -> Result<(), Fault> {
    let rows = rows_by_plan(alloc, &table.plan, event);
    put_compared(alloc, table, event, &rows, out)
}
