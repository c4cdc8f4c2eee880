//! The optional metadata of table maps: its fields, and what columns use from them.

use crate::words::{
    Fault, bytes_of, done, put_bits, put_error, put_item, put_name, put_number, put_text,
};
use rows_errors::RowsError;
use rows_table_map::{
    Bits, ColumnCharsets, ColumnName, ColumnNames, ColumnsStrValues, DefaultCharset, GeometryTypes,
    IterCharset, IterNames, IterPrimaryKey, IterSignedness, OptionalMetaExtractor,
    OptionalMetadataField as Field, OptionalMetadataIter, PrimaryKeysWithPrefix, SimplePrimaryKey,
    StrValues, VectorDimensionalities,
};
use std::alloc::Global;
use std::io::Write;

/// Appends a space and the name of an error.
fn put_spaced_error(fault: RowsError, out: &mut Vec<u8>) -> Result<(), Fault> {
    out.push(b' ')?;
    put_error(Fault::Rows(fault), out)
}

/// Appends the name of a field, ` 45` for its default character set, and ` 2=33` for that of another column.
fn put_default_charset(
    name: &str,
    charsets: DefaultCharset<'_>,
    out: &mut Vec<u8>,
) -> Result<(), Fault> {
    put_text(name, out)?;
    put_item(Ok(u64::from(charsets.default_charset())), out)?;
    for other in charsets.iter_non_default() {
        match other {
            Ok(other) => {
                put_item(Ok(other.column_index()), out)?;
                out.push(b'=')?;
                put_number(u64::from(other.charset()), out)?;
            }
            Err(fault) => put_spaced_error(fault, out)?,
        }
    }
    Ok(())
}

/// Appends the name of a field, and its character sets.
fn put_charsets(name: &str, charsets: ColumnCharsets<'_>, out: &mut Vec<u8>) -> Result<(), Fault> {
    put_text(name, out)?;
    for charset in charsets.iter_charsets() {
        put_item(charset.map(u64::from), out)?;
    }
    Ok(())
}

/// Appends a space and a column's name, owned.
fn put_column_name(alloc: Global, name: ColumnName<'_>, out: &mut Vec<u8>) -> Result<(), Fault> {
    let owned = name.into_owned(alloc)?;
    let text = owned.name(alloc)?;
    out.push(b' ')?;
    put_name(owned.name_raw(), text, out)
}

/// Appends names.
fn put_names(alloc: Global, names: IterNames<'_>, out: &mut Vec<u8>) -> Result<(), Fault> {
    for name in names {
        match name {
            Ok(name) => put_column_name(alloc, name, out)?,
            Err(fault) => put_spaced_error(fault, out)?,
        }
    }
    Ok(())
}

/// Appends ` ('x' 'yz')` for the members of one column.
fn put_members(alloc: Global, members: &StrValues<'_>, out: &mut Vec<u8>) -> Result<(), Fault> {
    if members.num_variants() != members.values().len() as u64 {
        put_text(" of another count", out)?;
    }
    put_text(" (", out)?;
    for (index, member) in members.values().iter().enumerate() {
        if index > 0 {
            out.push(b' ')?;
        }
        let text = member.value(alloc)?;
        put_name(member.value_raw(), text, out)?;
    }
    Ok(out.push(b')')?)
}

/// Appends the name of a field, and the members of each column.
fn put_columns_members(
    alloc: Global,
    name: &str,
    columns: ColumnsStrValues<'_>,
    out: &mut Vec<u8>,
) -> Result<(), Fault> {
    put_text(name, out)?;
    for members in columns.iter_values(alloc) {
        match members {
            Ok(members) => put_members(alloc, &members, out)?,
            Err(fault) => put_spaced_error(fault, out)?,
        }
    }
    Ok(())
}

/// Appends the types of geometry columns.
fn put_geometry_types(types: GeometryTypes<'_>, out: &mut Vec<u8>) -> Result<(), Fault> {
    put_text("GeometryType", out)?;
    for geometry_type in types.iter_geometry_types() {
        match geometry_type {
            Ok(geometry_type) => done(write!(out, " {geometry_type:?}"))?,
            Err(fault) => put_spaced_error(fault, out)?,
        }
    }
    Ok(())
}

/// Appends ` 2/5` for each column of a primary key and the length of its prefix.
fn put_prefixed_key(keys: PrimaryKeysWithPrefix<'_>, out: &mut Vec<u8>) -> Result<(), Fault> {
    put_text("PrimaryKeyWithPrefix", out)?;
    for key in keys.iter_keys() {
        match key {
            Ok(key) => {
                put_item(Ok(key.column_index()), out)?;
                out.push(b'/')?;
                put_number(key.prefix_length(), out)?;
            }
            Err(fault) => put_spaced_error(fault, out)?,
        }
    }
    Ok(())
}

/// Appends the columns of a primary key.
fn put_simple_key(key: SimplePrimaryKey<'_>, out: &mut Vec<u8>) -> Result<(), Fault> {
    put_text("SimplePrimaryKey", out)?;
    for index in key.iter_indexes() {
        put_item(index, out)?;
    }
    Ok(())
}

/// Appends the dimensions of vector columns.
fn put_dimensions(vectors: VectorDimensionalities<'_>, out: &mut Vec<u8>) -> Result<(), Fault> {
    put_text("Dimensionality", out)?;
    for dimensions in vectors.iter_dimensionalities() {
        put_item(dimensions, out)?;
    }
    Ok(())
}

/// Appends the name of a field, and its bits.
fn put_bits_field(name: &str, bits: Bits<'_>, out: &mut Vec<u8>) -> Result<(), Fault> {
    put_text(name, out)?;
    out.push(b' ')?;
    put_bits(bits, out)
}

/// Appends the names of the columns.
fn put_column_names(alloc: Global, names: ColumnNames<'_>, out: &mut Vec<u8>) -> Result<(), Fault> {
    put_text("ColumnName", out)?;
    put_names(alloc, names.iter_names(), out)
}

/// Appends a field: its name and its contents.
fn put_field(alloc: Global, field: Field<'_>, out: &mut Vec<u8>) -> Result<(), Fault> {
    match field {
        Field::Signedness(it) => put_bits_field("Signedness", it, out),
        Field::ColumnVisibility(it) => put_bits_field("ColumnVisibility", it, out),
        Field::DefaultCharset(it) => put_default_charset("DefaultCharset", it, out),
        Field::EnumAndSetDefaultCharset(it) => {
            put_default_charset("EnumAndSetDefaultCharset", it, out)
        }
        Field::ColumnCharset(it) => put_charsets("ColumnCharset", it, out),
        Field::EnumAndSetColumnCharset(it) => put_charsets("EnumAndSetColumnCharset", it, out),
        Field::ColumnName(it) => put_column_names(alloc, it, out),
        Field::SetStrValue(it) => put_columns_members(alloc, "SetStrValue", it, out),
        Field::EnumStrValue(it) => put_columns_members(alloc, "EnumStrValue", it, out),
        Field::GeometryType(it) => put_geometry_types(it, out),
        Field::SimplePrimaryKey(it) => put_simple_key(it, out),
        Field::PrimaryKeyWithPrefix(it) => put_prefixed_key(it, out),
        Field::Dimensionality(it) => put_dimensions(it, out),
    }
}

/// Appends the fields of optional metadata of at most `len` bytes, with `; ` between them. For a field that can't be read it
/// appends the error; after the last field there must be none.
pub(crate) fn put_fields(
    alloc: Global,
    fields: OptionalMetadataIter<'_>,
    len: usize,
    out: &mut Vec<u8>,
) -> Result<(), Fault> {
    let mut fields = fields;
    for index in 0..=len {
        let Some(field) = fields.next() else {
            break;
        };
        if index > 0 {
            put_text("; ", out)?;
        }
        match field {
            Ok(field) => put_field(alloc, field, out)?,
            Err(fault) => put_error(Fault::Rows(fault), out)?,
        }
    }
    if fields.next().is_some() {
        put_text(" and more", out)?;
    }
    Ok(())
}

/// `optional TYPES BYTES`: the fields of the optional metadata of a table with columns of these types.
pub(crate) fn put_optional(
    alloc: Global,
    arguments: &[&str],
    out: &mut Vec<u8>,
) -> Result<(), Fault> {
    let [types, bytes] = arguments else {
        return Err(Fault::NoCase);
    };
    let (types, bytes) = (bytes_of(alloc, types)?, bytes_of(alloc, bytes)?);
    put_fields(
        alloc,
        OptionalMetadataIter::new(&types, &bytes),
        bytes.len(),
        out,
    )
}

/// Appends a digit for each signedness bit, if there are any.
fn put_signs(signs: IterSignedness<'_>, out: &mut Vec<u8>) -> Result<(), Fault> {
    let mut is_first = true;
    for is_unsigned in signs {
        if is_first {
            put_text(" signs ", out)?;
            is_first = false;
        }
        out.push(if is_unsigned { b'1' } else { b'0' })?;
    }
    Ok(())
}

/// Appends ` 45 x300` for a character set that this many consecutive columns have; without a count if it is one.
fn put_run(
    charset: Option<Result<u16, RowsError>>,
    count: u64,
    out: &mut Vec<u8>,
) -> Result<(), Fault> {
    let Some(charset) = charset else {
        return Ok(());
    };
    put_item(charset.map(u64::from), out)?;
    if count > 1 {
        put_text(" x", out)?;
        put_number(count, out)?;
    }
    Ok(())
}

/// The character set of the next column. With a default character set they never end.
fn next_charset(charsets: &mut IterCharset<'_>) -> Option<Result<u16, RowsError>> {
    charsets.next()
}

/// Appends the name and the character sets of the first 300 columns, if there are any.
fn put_served_charsets(
    name: &str,
    charsets: IterCharset<'_>,
    out: &mut Vec<u8>,
) -> Result<(), Fault> {
    let mut charsets = charsets;
    let (mut last, mut count) = (None, 0u64);
    for _ in 0..300 {
        let Some(charset) = next_charset(&mut charsets) else {
            break;
        };
        if last.is_none() {
            put_text(name, out)?;
        }
        if last != Some(charset) {
            put_run(last, count, out)?;
            count = 0;
        }
        last = Some(charset);
        count = count.saturating_add(1);
    }
    put_run(last, count, out)
}

/// Appends the columns of the primary key, if there are any; each is peeked before it is taken.
fn put_key(key: IterPrimaryKey<'_>, out: &mut Vec<u8>) -> Result<(), Fault> {
    let mut key = key;
    if key.peek().is_some() {
        put_text(" key", out)?;
    }
    for _ in 0..u64::MAX {
        let ahead = key.peek();
        let next = key.next();
        if ahead != next {
            put_text(" otherwise by peek", out)?;
        }
        match next {
            Some(index) => put_item(index, out)?,
            None => break,
        }
    }
    if key.next().is_some() {
        put_text(" and more", out)?;
    }
    Ok(())
}

/// Appends the names of columns, if there are any.
fn put_taken_names(alloc: Global, names: IterNames<'_>, out: &mut Vec<u8>) -> Result<(), Fault> {
    let mut taken = Vec::new(alloc);
    put_names(alloc, names, &mut taken)?;
    if !taken.is_empty() {
        put_text(" names", out)?;
    }
    Ok(out.extend_from_slice(&taken)?)
}

/// `taken TYPES BYTES`: what the columns of a table with columns of these types use from its optional metadata.
pub(crate) fn put_taken(alloc: Global, arguments: &[&str], out: &mut Vec<u8>) -> Result<(), Fault> {
    let [types, bytes] = arguments else {
        return Err(Fault::NoCase);
    };
    let (types, bytes) = (bytes_of(alloc, types)?, bytes_of(alloc, bytes)?);
    let taken = OptionalMetaExtractor::new(OptionalMetadataIter::new(&types, &bytes))?;
    let mut result_of = Vec::new(alloc);
    put_signs(taken.iter_signedness(), &mut result_of)?;
    put_served_charsets(" charsets", taken.iter_charset(), &mut result_of)?;
    put_served_charsets(
        " member charsets",
        taken.iter_enum_and_set_charset(),
        &mut result_of,
    )?;
    put_key(taken.iter_primary_key(), &mut result_of)?;
    put_taken_names(alloc, taken.iter_column_name(), &mut result_of)?;
    Ok(out.extend_from_slice(result_of.get(1..).unwrap_or(b""))?)
}
