//! The table maps and the rows events of a case, and the calls that take both.

use crate::rows::put_rows;
use crate::table_maps::{put_definitions, put_each_column, put_reach};
use crate::words::{Fault, bytes_of};
use rows_errors::RowsError;
use rows_event_body::{ColumnPlan, RowsEvent, RowsEventCtx, RowsEventType};
use rows_table_map::TableMapEvent;
use std::alloc::{AllocError, Global};
use wire_buf::{ParseBuf, WireFault};

/// A table: its table map, and the plan of its columns.
#[derive(Drop)]
pub(crate) struct Table<'a> {
    pub(crate) map: TableMapEvent<'a>,
    pub(crate) plan: ColumnPlan,
}

/// Appends a length as a length-encoded integer of nine bytes.
fn put_len(len: usize, out: &mut Vec<u8>) -> Result<(), AllocError> {
    out.push(0xfe)?;
    out.extend_from_slice(&(len as u64).to_le_bytes())
}

/// The bytes of a table map of `d`.`t`, with columns of these types, this metadata and this optional metadata.
fn map_bytes(
    alloc: Global,
    types: &[u8],
    metadata: &[u8],
    optional: &[u8],
) -> Result<Vec<u8>, AllocError> {
    let mut out = Vec::from_slice(alloc, b"\x07\0\0\0\0\0\x01\0\x01d\0\x01t\0")?;
    put_len(types.len(), &mut out)?;
    out.extend_from_slice(types)?;
    put_len(metadata.len(), &mut out)?;
    out.extend_from_slice(metadata)?;
    for _ in 0..types.len().div_ceil(8) {
        out.push(0)?;
    }
    out.extend_from_slice(optional)?;
    Ok(out)
}

/// The same, each part written as in a case.
pub(crate) fn parsed_map(
    alloc: Global,
    types: &str,
    metadata: &str,
    optional: &str,
) -> Result<Vec<u8>, Fault> {
    let (types, metadata) = (bytes_of(alloc, types)?, bytes_of(alloc, metadata)?);
    let optional = bytes_of(alloc, optional)?;
    Ok(map_bytes(alloc, &types, &metadata, &optional)?)
}

/// The table map with these bytes, in a log whose post-header length of table maps is 8.
pub(crate) fn map_of(alloc: Global, bytes: &[u8]) -> Result<TableMapEvent<'_>, WireFault> {
    ParseBuf(bytes).parse::<TableMapEvent<'_>>(alloc, 8)
}

/// The bytes of a rows event for table 7 without extra data, with these bytes at the end.
fn event_bytes(alloc: Global, body: &[u8]) -> Result<Vec<u8>, AllocError> {
    let mut bytes = Vec::from_slice(alloc, b"\x07\0\0\0\0\0\x01\0\x02\0")?;
    bytes.extend_from_slice(body)?;
    Ok(bytes)
}

/// The rows event type with this name.
pub(crate) fn event_type_of(name: &str) -> Result<RowsEventType, Fault> {
    match name {
        "WriteRowsV1" => Ok(RowsEventType::WriteRowsV1),
        "UpdateRowsV1" => Ok(RowsEventType::UpdateRowsV1),
        "DeleteRowsV1" => Ok(RowsEventType::DeleteRowsV1),
        "WriteRows" => Ok(RowsEventType::WriteRows),
        "UpdateRows" => Ok(RowsEventType::UpdateRows),
        "DeleteRows" => Ok(RowsEventType::DeleteRows),
        "PartialUpdateRows" => Ok(RowsEventType::PartialUpdateRows),
        _ => Err(Fault::NoCase),
    }
}

/// The rows event of the type with this name and with these bytes, in a log with these post-header lengths for the type and for
/// `WRITE_ROWS_EVENT`.
pub(crate) fn event_of<'a>(
    alloc: Global,
    name: &str,
    len: usize,
    write_len: usize,
    bytes: &'a [u8],
) -> Result<RowsEvent<'a>, Fault> {
    let ctx = RowsEventCtx {
        event_type: event_type_of(name)?,
        post_header_len: len,
        write_post_header_len: write_len,
    };
    match ParseBuf(bytes).parse::<RowsEvent<'_>>(alloc, ctx) {
        Ok(event) => Ok(event),
        Err(fault) => Err(Fault::Wire(fault)),
    }
}

/// Appends the result of a call for a table and the event with these bytes, of the type with this name.
fn put_by_event(
    alloc: Global,
    call: &str,
    table: &Table<'_>,
    name: &str,
    bytes: &[u8],
    out: &mut Vec<u8>,
) -> Result<(), Fault> {
    match event_of(alloc, name, 10, 10, bytes) {
        Ok(event) => match call {
            "rows" => put_rows(alloc, table, &event, out),
            _ => put_definitions(alloc, &table.plan, &event, out),
        },
        Err(fault) => Err(fault),
    }
}

/// Appends the result of a call for a table.
fn put_by_table(
    alloc: Global,
    call: &str,
    table: &Table<'_>,
    name: &str,
    bytes: &[u8],
    out: &mut Vec<u8>,
) -> Result<(), Fault> {
    match call {
        "columns" => put_each_column(&table.map, out),
        "plan" => put_reach(&table.plan, out),
        _ => put_by_event(alloc, call, table, name, bytes, out),
    }
}

/// Appends the result of a call for the table of a table map.
fn put_by_map(
    alloc: Global,
    call: &str,
    map: TableMapEvent<'_>,
    name: &str,
    bytes: &[u8],
    out: &mut Vec<u8>,
) -> Result<(), Fault> {
    match ColumnPlan::new(alloc, &map) {
        Ok(plan) => put_by_table(alloc, call, &Table { map, plan }, name, bytes, out),
        Err(_) => Err(Fault::Rows(RowsError::Memory)),
    }
}

/// `columns TYPES METADATA`: the real type and the metadata of each column of a table.
///
/// `plan TYPES METADATA OPTIONAL`: the number of a table's columns that have a plan, or `none` if not even a table without
/// columns has one; and the number of its JSON columns, if there are any.
///
/// `definitions TYPE TYPES METADATA OPTIONAL EVENT`: the definitions of the columns in the rows after the change, for an event
/// of this type, whose bytes are those after its flags and extra data.
///
/// `rows TYPE TYPES METADATA OPTIONAL EVENT`: the rows of such an event, for a table with columns of these types, this metadata
/// and this optional metadata; and the error of the first row that can't be read, after the cells before it.
pub(crate) fn put_of_table(
    alloc: Global,
    call: &str,
    arguments: &[&str],
    out: &mut Vec<u8>,
) -> Result<(), Fault> {
    let (name, types, metadata, optional, event) = match (call, arguments) {
        ("columns", [types, metadata]) => ("", *types, *metadata, "", ""),
        ("plan", [types, metadata, optional]) => ("", *types, *metadata, *optional, ""),
        ("definitions" | "rows", [name, types, metadata, optional, event]) => {
            (*name, *types, *metadata, *optional, *event)
        }
        _ => return Err(Fault::NoCase),
    };
    let event = event_bytes(alloc, &bytes_of(alloc, event)?)?;
    let bytes = parsed_map(alloc, types, metadata, optional)?;
    match map_of(alloc, &bytes) {
        Ok(map) => put_by_map(alloc, call, map, name, &event, out),
        Err(fault) => Err(Fault::Wire(fault)),
    }
}
