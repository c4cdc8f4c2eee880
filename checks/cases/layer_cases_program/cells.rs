//! Plain values of cells, quoted bytes, and opaque values of JSON documents. The texts of cells are those of rows.

use crate::words::{Fault, bytes_of, done, only_bytes_of, put_rest, put_type};
use feed_text::{put_value, quote};
use rows_cells::{BinlogValue, BinlogValueCtx};
use rows_errors::RowsError;
use rows_jsonb::{JsonDom, JsonOpaque, JsonScalar, Value as JsonbValue};
use rows_values::Value;
use std::alloc::Global;
use std::io::Write;
use wire_buf::ParseBuf;
use wire_constants::ColumnType;

/// The column type with this number.
fn type_of(number: &[u8]) -> Result<ColumnType, Fault> {
    let [number] = number else {
        return Err(Fault::NoCase);
    };
    match ColumnType::try_from(*number) {
        Ok(column_type) => Ok(column_type),
        Err(_) => Err(Fault::NoCase),
    }
}

/// Appends the text of a plain value, or why there is none.
fn put_plain(alloc: Global, value: BinlogValue<'_>, out: &mut Vec<u8>) -> Result<(), Fault> {
    match Value::try_from(value.into_owned(alloc)?) {
        Ok(plain) => Ok(put_value(&plain, out)?),
        Err(error) => done(write!(out, "{error:?}")),
    }
}

/// `plain_cell TYPE METADATA BYTES`: the text of the plain value of a column's cell, or why it has none, and the bytes after
/// the cell, if there are any; `plain_unsigned_cell` for an unsigned column, `plain_partial_cell` for a cell with JSON diffs.
pub(crate) fn put_plain_cell(
    alloc: Global,
    call: &str,
    arguments: &[&str],
    out: &mut Vec<u8>,
) -> Result<(), Fault> {
    let [number, metadata, bytes] = arguments else {
        return Err(Fault::NoCase);
    };
    let metadata = bytes_of(alloc, metadata)?;
    let column = BinlogValueCtx {
        real_type: type_of(&bytes_of(alloc, number)?)?,
        metadata: &metadata,
        is_unsigned: call == "plain_unsigned_cell",
        is_partial: call == "plain_partial_cell",
    };
    let bytes = bytes_of(alloc, bytes)?;
    let mut buf = ParseBuf(&bytes);
    let value = buf.parse::<BinlogValue<'_>>(alloc, column)?;
    put_plain(alloc, value, out)?;
    put_rest(buf.0, out)
}

/// `quote BYTES`: the quoted bytes.
pub(crate) fn put_quoted(
    alloc: Global,
    arguments: &[&str],
    out: &mut Vec<u8>,
) -> Result<(), Fault> {
    Ok(quote(&only_bytes_of(alloc, arguments)?, out)?)
}

/// Appends the column type and the bytes of an opaque value, and its text by `Display`.
fn put_opaque_value(opaque: &JsonOpaque, out: &mut Vec<u8>) -> Result<(), Fault> {
    put_type(opaque.field_type(), out)?;
    out.push(b' ')?;
    quote(opaque.value(), out)?;
    done(write!(out, " {opaque}"))
}

/// The tree of a document.
fn tree(alloc: Global, bytes: &[u8]) -> Result<JsonDom, RowsError> {
    ParseBuf(bytes)
        .parse::<JsonbValue<'_>>(alloc, ())?
        .parse(alloc)
}

/// `opaque BYTES`: the column type and the bytes of a document that is an opaque value, and its text by `Display`.
pub(crate) fn put_opaque(
    alloc: Global,
    arguments: &[&str],
    out: &mut Vec<u8>,
) -> Result<(), Fault> {
    match &tree(alloc, &only_bytes_of(alloc, arguments)?)? {
        JsonDom::Scalar(JsonScalar::Opaque(opaque)) => put_opaque_value(opaque, out),
        _ => Err(Fault::NoCase),
    }
}
