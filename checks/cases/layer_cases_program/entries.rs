//! The parts of the optional metadata as fields: read, and written in their shortest encoding.

use crate::words::{Fault, bytes_of, put_bytes, put_rest};
use rows_errors::RowsError;
use rows_table_map::{
    ColumnCharsets, ColumnName, ColumnNames, DefaultCharset, EnumStrValue, EnumStrValues,
    EnumsStrValues, GeometryTypes, NonDefaultCharset, PrimaryKeyWithPrefix, PrimaryKeysWithPrefix,
    SetStrValue, SetStrValues, SetsStrValues, SimplePrimaryKey, VectorDimensionalities,
};
use std::alloc::Global;
use wire_buf::{MyDeserialize, MySerialize, ParseBuf};

/// Appends what is written for the value that the bytes begin with, and the bytes after it.
fn put_written<'a, T: MyDeserialize<'a, Ctx = (), Fault = RowsError> + MySerialize + Drop>(
    alloc: Global,
    bytes: &'a [u8],
    out: &mut Vec<u8>,
) -> Result<(), Fault> {
    let mut buf = ParseBuf(bytes);
    let value = buf.parse::<T>(alloc, ())?;
    let mut written = Vec::new(alloc);
    value.serialize(&mut written)?;
    put_bytes(&written, out)?;
    put_rest(buf.0, out)
}

/// `entry TYPE BYTES`: what is written for the value of this type that the bytes begin with, and the bytes after it.
pub(crate) fn put_entry(alloc: Global, arguments: &[&str], out: &mut Vec<u8>) -> Result<(), Fault> {
    let [name, bytes] = arguments else {
        return Err(Fault::NoCase);
    };
    let bytes = bytes_of(alloc, bytes)?;
    match *name {
        "ColumnCharsets" => put_written::<ColumnCharsets<'_>>(alloc, &bytes, out),
        "ColumnName" => put_written::<ColumnName<'_>>(alloc, &bytes, out),
        "ColumnNames" => put_written::<ColumnNames<'_>>(alloc, &bytes, out),
        "DefaultCharset" => put_written::<DefaultCharset<'_>>(alloc, &bytes, out),
        "EnumStrValue" => put_written::<EnumStrValue<'_>>(alloc, &bytes, out),
        "EnumStrValues" => put_written::<EnumStrValues<'_>>(alloc, &bytes, out),
        "EnumsStrValues" => put_written::<EnumsStrValues<'_>>(alloc, &bytes, out),
        "GeometryTypes" => put_written::<GeometryTypes<'_>>(alloc, &bytes, out),
        "NonDefaultCharset" => put_written::<NonDefaultCharset>(alloc, &bytes, out),
        "PrimaryKeyWithPrefix" => put_written::<PrimaryKeyWithPrefix>(alloc, &bytes, out),
        "PrimaryKeysWithPrefix" => put_written::<PrimaryKeysWithPrefix<'_>>(alloc, &bytes, out),
        "SetStrValue" => put_written::<SetStrValue<'_>>(alloc, &bytes, out),
        "SetStrValues" => put_written::<SetStrValues<'_>>(alloc, &bytes, out),
        "SetsStrValues" => put_written::<SetsStrValues<'_>>(alloc, &bytes, out),
        "SimplePrimaryKey" => put_written::<SimplePrimaryKey<'_>>(alloc, &bytes, out),
        "VectorDimensionalities" => put_written::<VectorDimensionalities<'_>>(alloc, &bytes, out),
        _ => Err(Fault::NoCase),
    }
}
