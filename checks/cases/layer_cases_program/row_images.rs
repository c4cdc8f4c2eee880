//! Images by the plan of a table's columns, rows as fields, and tables with many columns.

use crate::owned_rows::put_cells;
use crate::tables::{event_of, map_of, parsed_map};
use crate::wire_words::len_of;
use crate::words::{Fault, bytes_of, done, put_bytes, put_number, put_rest, put_text, put_type};
use rows_cells::{CellRef, RowPart};
use rows_event_body::{
    BinlogRow, BinlogRowCtx, ColumnPlan, EventColumns, ImageColumns, RowImage, RowsEvent,
};
use rows_table_map::{Bits, TableMapEvent};
use rows_values::Column;
use std::alloc::Global;
use std::io::Write;
use wire_buf::ParseBuf;

/// Appends the indexes of the columns in an image with these bits, by each call that lists them.
fn put_columns(
    alloc: Global,
    plan: &ColumnPlan,
    bits: Bits<'_>,
    out: &mut Vec<u8>,
) -> Result<(), Fault> {
    let (mut listed, mut columns) = (Vec::new(alloc), ImageColumns::new(alloc));
    columns.fill(plan, bits, false)?;
    plan.image_columns(bits, &mut listed)?;
    let (filled, json_columns) = columns.into_parts();
    if filled != listed || json_columns.is_some() {
        put_text("otherwise by image_columns ", out)?;
    }
    put_text("columns", out)?;
    for column in &filled {
        done(write!(out, " {}", column.column))?;
    }
    Ok(())
}

/// `image TYPES METADATA BITS BYTES`: of a table with columns of these types and this metadata, the columns in an image with
/// these bits, a bit for each column; the owned row that the bytes begin with, and the bytes after it.
pub(crate) fn put_image(alloc: Global, arguments: &[&str], out: &mut Vec<u8>) -> Result<(), Fault> {
    let [types, metadata, bits, bytes] = arguments else {
        return Err(Fault::NoCase);
    };
    let table = parsed_map(alloc, types, metadata, "")?;
    let map = map_of(alloc, &table)?;
    let plan = ColumnPlan::new(alloc, &map)?;
    let (bits, bytes) = (bytes_of(alloc, bits)?, bytes_of(alloc, bytes)?);
    let count = map.column_types_raw().len();
    if count > 8 * bits.len() {
        return Err(Fault::NoCase);
    }
    let bits = Bits::lowest(&bits, count);
    put_columns(alloc, &plan, bits, out)?;
    put_text(": ", out)?;
    let (row, rest) = RowImage::new(alloc, &plan, bits, false)?.read(alloc, &bytes)?;
    put_cells(alloc, &row, out)?;
    put_rest(rest, out)
}

/// Appends the row that the bytes begin with, read as a field with so many columns and bits.
fn put_field<'a>(
    alloc: Global,
    table_map: &'a TableMapEvent<'a>,
    num_columns: u64,
    columns: Bits<'a>,
    bytes: &'a [u8],
    out: &mut Vec<u8>,
) -> Result<(), Fault> {
    let mut buf = ParseBuf(bytes);
    let ctx = BinlogRowCtx {
        num_columns,
        columns,
        has_shared_image: false,
        table_map,
    };
    let row = buf.parse::<BinlogRow>(alloc, ctx)?;
    put_cells(alloc, &row, out)?;
    put_rest(buf.0, out)
}

/// `row_field TYPES METADATA COLUMNS BITS COUNT BYTES`: the row that the bytes begin with, of an event with this number of
/// columns and of bits.
pub(crate) fn put_row_field(
    alloc: Global,
    arguments: &[&str],
    out: &mut Vec<u8>,
) -> Result<(), Fault> {
    let [types, metadata, columns, bits, count, bytes] = arguments else {
        return Err(Fault::NoCase);
    };
    let table = parsed_map(alloc, types, metadata, "")?;
    let map = map_of(alloc, &table)?;
    let (bits, bytes) = (bytes_of(alloc, bits)?, bytes_of(alloc, bytes)?);
    let (columns, count) = (len_of(columns)? as u64, len_of(count)?);
    if count > 8 * bits.len() {
        return Err(Fault::NoCase);
    }
    put_field(
        alloc,
        &map,
        columns,
        Bits::lowest(&bits, count),
        &bytes,
        out,
    )
}

/// The table map of so many columns of type LONG, each with its index in two bytes as its name.
fn wide_map(alloc: Global, count: u16) -> Result<Vec<u8>, Fault> {
    let mut map = Vec::from_slice(alloc, b"\x07\0\0\0\0\0\x01\0\x01d\0\x01t\0\xfc")?;
    map.extend_from_slice(&count.to_le_bytes())?;
    map.resize(map.len() + usize::from(count), 3)?;
    map.push(0)?;
    map.resize(map.len() + usize::from(count).div_ceil(8), 0)?;
    map.extend_from_slice(b"\x04\xfc")?;
    map.extend_from_slice(&(3 * count).to_le_bytes())?;
    for index in 0..count {
        map.push(2)?;
        map.extend_from_slice(&index.to_be_bytes())?;
    }
    Ok(map)
}

/// An insert of a row with so many columns: each cell has its column's index.
fn wide_event(alloc: Global, count: u16) -> Result<Vec<u8>, Fault> {
    let len = usize::from(count).div_ceil(8);
    let mut event = Vec::from_slice(alloc, b"\x07\0\0\0\0\0\x01\0\x02\0\xfc")?;
    event.extend_from_slice(&count.to_le_bytes())?;
    event.resize(event.len() + len, 0xff)?;
    event.resize(event.len() + len, 0)?;
    for index in 0..u32::from(count) {
        event.extend_from_slice(&index.to_le_bytes())?;
    }
    Ok(event)
}

/// Appends a column's type and name, and its flags and character set.
fn put_column(column: &Column, out: &mut Vec<u8>) -> Result<(), Fault> {
    out.push(b' ')?;
    put_type(column.column_type(), out)?;
    out.push(b' ')?;
    put_bytes(column.name_ref(), out)?;
    let (flags, charset) = (u16::from(column.flags()), column.character_set());
    done(write!(out, " flags {flags} charset {charset}"))
}

/// How many cells of the event's row have their column's index, up to the first that doesn't; then the row and the event must
/// end.
fn put_cells_of(
    alloc: Global,
    plan: &ColumnPlan,
    event: &RowsEvent<'_>,
    out: &mut Vec<u8>,
) -> Result<(), Fault> {
    let mut columns = EventColumns::new(alloc);
    columns.fill(event, plan)?;
    let mut rows = event.cursor(&columns);
    let mut count = 0u32;
    for index in 0..u32::MAX {
        match rows.next_part()? {
            Some(RowPart::Cell(column, CellRef::Int(number)))
                if column == index && number == i64::from(index) => {
                count = index + 1;
            }
            Some(RowPart::EndOfRow) => break,
            _ => return put_text(" and another part", out),
        }
    }
    if !matches!(rows.next_part(), Ok(None)) {
        put_text(" and another row", out)?;
    }
    put_text(", cells ", out)?;
    put_number(u64::from(count), out)
}

/// `wide_table COUNT`: the reach of the plan of a table with so many columns, of at least 251; their number, the first and the
/// last one, and the number of cells of a row.
pub(crate) fn put_wide_table(
    alloc: Global,
    arguments: &[&str],
    out: &mut Vec<u8>,
) -> Result<(), Fault> {
    let [count] = arguments else {
        return Err(Fault::NoCase);
    };
    let count = len_of(count)? as u16;
    let (table, cells) = (wide_map(alloc, count)?, wide_event(alloc, count)?);
    let map = map_of(alloc, &table)?;
    let plan = ColumnPlan::new(alloc, &map)?;
    let mut bits = Vec::new(alloc);
    bits.resize(usize::from(count).div_ceil(8), 0xff)?;
    let columns = plan.definitions(alloc, Bits::lowest(&bits, usize::from(count)))?;
    let reach = plan.reach();
    done(write!(out, "reach {reach:?}, {} columns", columns.len()))?;
    for column in columns.first().into_iter().chain(columns.last()) {
        put_column(column, out)?;
    }
    put_cells_of(
        alloc,
        &plan,
        &event_of(alloc, "WriteRows", 10, 10, &cells)?,
        out,
    )
}
