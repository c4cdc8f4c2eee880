//! Table maps: reading and writing them, their columns, and the plans of the columns.

use crate::optional::put_fields;
use crate::words::{
    Fault, bytes_of, done, put_bytes, put_name, put_number, put_text, put_type, put_written,
    small_len_of,
};
use feed_text::quote;
use rows_errors::RowsError;
use rows_event_body::{ColumnPlan, RowsEvent};
use rows_table_map::TableMapEvent;
use rows_values::Column;
use std::alloc::Global;
use std::io::Write;
use wire_buf::{MySerialize, ParseBuf};

/// Appends the table id, the flags and the names of the table map.
fn put_head(alloc: Global, map: &TableMapEvent<'_>, out: &mut Vec<u8>) -> Result<(), Fault> {
    put_text("table ", out)?;
    put_number(map.table_id(), out)?;
    put_text(" flags ", out)?;
    put_number(u64::from(map.flags()), out)?;
    out.push(b' ')?;
    let database = map.database_name(alloc)?;
    put_name(map.database_name_raw(), database, out)?;
    out.push(b' ')?;
    put_name(map.table_name_raw(), map.table_name(alloc)?, out)
}

/// Appends the fields of the table map about columns, as bytes.
fn put_columns_bytes(map: &TableMapEvent<'_>, out: &mut Vec<u8>) -> Result<(), Fault> {
    put_text(" types ", out)?;
    put_bytes(map.column_types_raw(), out)?;
    if map.columns_count() != map.column_types_raw().len() as u64 {
        put_text(" of another count", out)?;
    }
    put_text(" metadata ", out)?;
    put_bytes(map.metadata_raw(), out)?;
    put_text(" null ", out)?;
    put_bytes(map.null_bitmask_raw(), out)?;
    if !(0..map.column_types_raw().len()).all(|index| has_column(map, index)) {
        put_text(" with other columns", out)?;
    }
    Ok(())
}

/// Whether the column at this index has the type and the bit that the bytes have for it.
fn has_column(map: &TableMapEvent<'_>, index: usize) -> bool {
    let number = map.column_types_raw()[index];
    let byte = map.null_bitmask_raw()[index / 8];
    let is_typed = match map.get_raw_column_type(index) {
        Ok(Some(column_type)) => u8::from(column_type) == number,
        Ok(None) => false,
        Err(unknown) => u8::from(unknown) == number,
    };
    is_typed && map.null_bitmask().get(index) == Some((byte >> (index % 8)) & 1 == 1)
}

/// Appends the number of JSON columns and the fields of the optional metadata, if there are any.
fn put_tail(alloc: Global, map: &TableMapEvent<'_>, out: &mut Vec<u8>) -> Result<(), Fault> {
    if map.json_column_count() > 0 {
        put_text(" json ", out)?;
        put_number(map.json_column_count() as u64, out)?;
    }
    let optional = map.optional_metadata_raw();
    if optional.is_empty() {
        return Ok(());
    }
    put_text(" optional ", out)?;
    put_bytes(optional, out)?;
    put_text(": ", out)?;
    put_fields(alloc, map.iter_optional_meta(), optional.len(), out)
}

/// Appends the contents of the table map.
fn put_map(alloc: Global, map: &TableMapEvent<'_>, out: &mut Vec<u8>) -> Result<(), Fault> {
    put_head(alloc, map, out)?;
    put_columns_bytes(map, out)?;
    put_tail(alloc, map, out)
}

/// The bytes that are written for a table map.
fn written(alloc: Global, map: &TableMapEvent<'_>) -> Result<Vec<u8>, Fault> {
    let mut bytes = Vec::new(alloc);
    match map.serialize(&mut bytes) {
        Ok(()) => Ok(bytes),
        Err(fault) => Err(Fault::Wire(fault)),
    }
}

/// Appends what is written for the owned table map, if this differs from the bytes that were read.
fn put_owned(
    alloc: Global,
    map: &TableMapEvent<'_>,
    bytes: &[u8],
    out: &mut Vec<u8>,
) -> Result<(), Fault> {
    let written = written(alloc, map)?;
    if map.len() != written.len() {
        put_text(" of another length", out)?;
    }
    put_written(&written, bytes, out)
}

/// Appends the contents of a table map, and what is written for it, if this differs from the bytes that were read.
fn put_whole(
    alloc: Global,
    map: TableMapEvent<'_>,
    bytes: &[u8],
    out: &mut Vec<u8>,
) -> Result<(), Fault> {
    put_map(alloc, &map, out)?;
    match map.into_owned(alloc) {
        Ok(owned) => put_owned(alloc, &owned, bytes, out),
        Err(_) => Err(Fault::Rows(RowsError::Memory)),
    }
}

/// `table_map LEN BYTES`: the table map with these bytes, for this post-header length: its contents, and what is written for
/// it, if this differs from the bytes.
pub(crate) fn put_table_map(
    alloc: Global,
    arguments: &[&str],
    out: &mut Vec<u8>,
) -> Result<(), Fault> {
    let [len, bytes] = arguments else {
        return Err(Fault::NoCase);
    };
    let (len, bytes) = (small_len_of(len)?, bytes_of(alloc, bytes)?);
    match ParseBuf(&bytes).parse::<TableMapEvent<'_>>(alloc, len) {
        Ok(map) => put_whole(alloc, map, &bytes, out),
        Err(fault) => Err(Fault::Wire(fault)),
    }
}

/// Appends the real type of the column at the index, or the error, and its metadata.
fn put_column(map: &TableMapEvent<'_>, index: usize, out: &mut Vec<u8>) -> Result<(), Fault> {
    match map.get_column_type(index) {
        Ok(Some(column_type)) => put_type(column_type, out)?,
        Ok(None) => put_text("none", out)?,
        Err(bad) => done(write!(out, "{bad:?}"))?,
    }
    match map.get_column_metadata(index) {
        Some(b"") => Ok(()),
        Some(metadata) => {
            out.push(b':')?;
            put_bytes(metadata, out)
        }
        None => put_text(" without metadata", out),
    }
}

/// Appends the columns of a table map. There must be none after them.
pub(crate) fn put_each_column(map: &TableMapEvent<'_>, out: &mut Vec<u8>) -> Result<(), Fault> {
    let count = map.column_types_raw().len();
    for index in 0..count {
        if index > 0 {
            out.push(b' ')?;
        }
        put_column(map, index, out)?;
    }
    if map.get_column_metadata(count).is_some() || map.get_column_type(count) != Ok(None) {
        put_text(" and more", out)?;
    }
    Ok(())
}

/// Appends the number of columns that have a plan, and the number of JSON columns.
pub(crate) fn put_reach(plan: &ColumnPlan, out: &mut Vec<u8>) -> Result<(), Fault> {
    match plan.reach() {
        Some(reach) => put_number(reach, out)?,
        None => put_text("none", out)?,
    }
    if plan.json_columns() > 0 {
        put_text(" json ", out)?;
        put_number(plan.json_columns() as u64, out)?;
    }
    Ok(())
}

/// Appends the definition of a column: its type, its name, its flags and its character set, if it has these.
fn put_definition(column: &Column, out: &mut Vec<u8>) -> Result<(), Fault> {
    put_type(column.column_type(), out)?;
    out.push(b' ')?;
    quote(column.name_ref(), out)?;
    let flags = u16::from(column.flags());
    if flags != 0 {
        put_text(" flags ", out)?;
        put_number(u64::from(flags), out)?;
    }
    if column.character_set() != 0 {
        put_text(" charset ", out)?;
        put_number(u64::from(column.character_set()), out)?;
    }
    let names = [
        column.schema_ref(),
        column.table_ref(),
        column.org_table_ref(),
    ];
    if names != [b"d".as_slice(), b"t".as_slice(), b"t".as_slice()] {
        put_text(" of another table", out)?;
    }
    Ok(())
}

/// Appends the definitions of columns.
fn put_each_definition(columns: &[Column], out: &mut Vec<u8>) -> Result<(), Fault> {
    for (index, column) in columns.iter().enumerate() {
        if index > 0 {
            put_text(", ", out)?;
        }
        put_definition(column, out)?;
    }
    Ok(())
}

/// Appends the definitions of the columns in the rows after the change.
pub(crate) fn put_definitions(
    alloc: Global,
    plan: &ColumnPlan,
    event: &RowsEvent<'_>,
    out: &mut Vec<u8>,
) -> Result<(), Fault> {
    match event.columns_after_image() {
        Some(bits) => match plan.definitions(alloc, bits) {
            Ok(columns) => put_each_definition(&columns, out),
            Err(fault) => Err(Fault::Rows(fault)),
        },
        None => Err(Fault::NoCase),
    }
}
