//! Plain values, columns, and rows of these; bits.

use crate::wire_constants::narrow;
use crate::wire_words::{len_of, name_and_argument};
use crate::words::{Fault, bytes_of, done, put_bits, put_name, put_number, put_text, put_type};
use feed_text::put_value;
use rows_table_map::Bits;
use rows_values::{Column, Row, Value, new_row_raw};
use std::alloc::Global;
use std::io::Write;
use std::rc::RcSlice;
use wire_constants::{ColumnFlags, ColumnType};

/// The numbers of a word, with `,` between them.
fn numbers_of(alloc: Global, word: &str) -> Result<Vec<u32>, Fault> {
    let mut numbers = Vec::new(alloc);
    for number in word.split(',') {
        numbers.push(narrow::<u32>(number)?)?;
    }
    Ok(numbers)
}

/// The date with these numbers: year, month, day, hour, minute, second and microseconds.
fn date_of(numbers: &[u32]) -> Result<Value, Fault> {
    match numbers {
        [year, month, day, hour, minute, second, micros] => Ok(Value::Date(
            *year as u16,
            *month as u8,
            *day as u8,
            *hour as u8,
            *minute as u8,
            *second as u8,
            *micros,
        )),
        _ => Err(Fault::NoCase),
    }
}

/// The time with these numbers: 1 if it is negative, days, hours, minutes, seconds and microseconds.
fn time_of(numbers: &[u32]) -> Result<Value, Fault> {
    match numbers {
        [negative, days, hour, minute, second, micros] => Ok(Value::Time(
            *negative == 1,
            *days,
            *hour as u8,
            *minute as u8,
            *second as u8,
            *micros,
        )),
        _ => Err(Fault::NoCase),
    }
}

/// The value of a word: `NULL`, or a kind, `:` and its contents.
pub(crate) fn value_of(alloc: Global, word: &str) -> Result<Value, Fault> {
    let (kind, contents) = name_and_argument(word);
    match kind {
        "NULL" => Ok(Value::NULL),
        "bytes" => Ok(Value::Bytes(bytes_of(alloc, contents)?)),
        "int" => Ok(Value::Int(narrow(contents)?)),
        "uint" => Ok(Value::UInt(narrow(contents)?)),
        "float" => Ok(Value::Float(narrow(contents)?)),
        "double" => Ok(Value::Double(narrow(contents)?)),
        "date" => date_of(&numbers_of(alloc, contents)?),
        "time" => time_of(&numbers_of(alloc, contents)?),
        _ => Err(Fault::NoCase),
    }
}

/// Appends the text of a value, and a remark if its copy differs or has another text.
fn put_copied(alloc: Global, value: &Value, out: &mut Vec<u8>) -> Result<(), Fault> {
    let (mut text, mut again) = (Vec::new(alloc), Vec::new(alloc));
    let copy = value.clone(alloc)?;
    put_value(value, &mut text)?;
    put_value(&copy, &mut again)?;
    out.extend_from_slice(&text)?;
    if copy != *value || text != again {
        put_text(" copied otherwise", out)?;
    }
    Ok(())
}

/// `value_text VALUE`: the text of a value and of its copy.
pub(crate) fn put_value_text(
    alloc: Global,
    arguments: &[&str],
    out: &mut Vec<u8>,
) -> Result<(), Fault> {
    let [word] = arguments else {
        return Err(Fault::NoCase);
    };
    put_copied(alloc, &value_of(alloc, word)?, out)
}

/// The column with these names, flags and character set; the names are between `,`: schema, table, original table, name.
fn column_of(alloc: Global, names: &str, flags: &str, charset: &str) -> Result<Column, Fault> {
    let mut column = Column::new(alloc, ColumnType::MYSQL_TYPE_LONG);
    for (index, name) in names.split(',').enumerate() {
        let name = bytes_of(alloc, name)?;
        column = match index {
            0 => column.with_schema(&name)?,
            1 => column.with_table(&name)?,
            2 => column.with_org_table(&name)?,
            3 => column.with_name(&name)?,
            _ => return Err(Fault::NoCase),
        };
    }
    let Ok(flags) = ColumnFlags::try_from(narrow::<u16>(flags)?) else {
        return Err(Fault::NoCase);
    };
    Ok(
        column
            .with_flags(flags)
            .with_character_set(narrow(charset)?),
    )
}

/// Appends each field of a column.
fn put_column(alloc: Global, column: &Column, out: &mut Vec<u8>) -> Result<(), Fault> {
    let (schema, table) = (column.schema_str(alloc)?, column.table_str(alloc)?);
    let (original, name) = (column.org_table_str(alloc)?, column.name_str(alloc)?);
    put_type(column.column_type(), out)?;
    put_text(" schema ", out)?;
    put_name(column.schema_ref(), schema, out)?;
    put_text(" table ", out)?;
    put_name(column.table_ref(), table, out)?;
    put_text(" original ", out)?;
    put_name(column.org_table_ref(), original, out)?;
    put_text(" name ", out)?;
    put_name(column.name_ref(), name, out)?;
    put_text(" flags ", out)?;
    put_number(u64::from(u16::from(column.flags())), out)?;
    put_text(" charset ", out)?;
    put_number(u64::from(column.character_set()), out)
}

/// `column NAMES FLAGS CHARSET`: the fields of a column that is made with these names, flags and character set; its copy must
/// equal it.
pub(crate) fn put_made_column(
    alloc: Global,
    arguments: &[&str],
    out: &mut Vec<u8>,
) -> Result<(), Fault> {
    let [names, flags, charset] = arguments else {
        return Err(Fault::NoCase);
    };
    let column = column_of(alloc, names, flags, charset)?;
    let copy = column.clone(alloc)?;
    let mut again = Vec::new(alloc);
    put_column(alloc, &column, out)?;
    put_column(alloc, &copy, &mut again)?;
    if copy != column || again.as_slice() != out.as_slice() {
        put_text(" copied otherwise", out)?;
    }
    Ok(())
}

/// Appends the lengths of a row, and its values, `none` for one that is missing; there may be none after them.
fn put_row(alloc: Global, row: &Row, out: &mut Vec<u8>) -> Result<(), Fault> {
    done(write!(out, "{} columns {}:", row.len(), row.columns_ref().len()))?;
    for index in 0..row.len() {
        out.push(b' ')?;
        match row.as_ref(index) {
            Some(value) => put_copied(alloc, value, out)?,
            None => put_text("none", out)?,
        }
    }
    if row.as_ref(row.len()).is_some() {
        put_text(" and more", out)?;
    }
    Ok(())
}

/// `plain_row VALUE ..`: the values of a row with one column; its copy must equal it.
pub(crate) fn put_plain_row(
    alloc: Global,
    arguments: &[&str],
    out: &mut Vec<u8>,
) -> Result<(), Fault> {
    let (mut values, mut columns) = (Vec::new(alloc), Vec::new(alloc));
    columns.push(Column::new(alloc, ColumnType::MYSQL_TYPE_LONG))?;
    for word in arguments {
        let value = match *word {
            "none" => None,
            _ => Some(value_of(alloc, word)?),
        };
        values.push(value)?;
    }
    let row = new_row_raw(values, RcSlice::from_vec(columns)?);
    let copy = row.clone(alloc)?;
    let mut again = Vec::new(alloc);
    put_row(alloc, &row, out)?;
    put_row(alloc, &copy, &mut again)?;
    let is_same = copy == row && copy.columns_ref() == row.columns_ref();
    if !is_same || again.as_slice() != out.as_slice() {
        put_text(" copied otherwise", out)?;
    }
    Ok(())
}

/// The bits of a case, in this order.
fn made_bits<'a>(order: &str, bytes: &'a [u8], len: usize) -> Result<Bits<'a>, Fault> {
    if len > 8 * bytes.len() {
        return Err(Fault::NoCase);
    }
    match order {
        "lowest" => Ok(Bits::lowest(bytes, len)),
        "highest" => Ok(Bits::highest(bytes, len)),
        _ => Err(Fault::NoCase),
    }
}

/// Appends the bits by an iterator, how many there are and how many are set, and a remark if the bit at an index is another
/// one.
fn put_all_bits(bits: Bits<'_>, out: &mut Vec<u8>) -> Result<(), Fault> {
    put_bits(bits, out)?;
    done(write!(out, " of {}, {} set", bits.len(), bits.count_ones()))?;
    let mut is_same = bits.get(bits.len()).is_none() && bits.is_empty() == (bits.len() == 0);
    for (index, bit) in bits.iter().enumerate() {
        is_same = is_same && bits.get(index) == Some(bit);
    }
    if !is_same {
        put_text(" otherwise by get", out)?;
    }
    Ok(())
}

/// `bits ORDER BYTES COUNT`: this many bits of bytes, from the `lowest` or the `highest` bit of each byte on.
///
/// `equal_bits ORDER BYTES COUNT ORDER BYTES COUNT`: whether the bits of two cases are equal.
pub(crate) fn put_of_bits(
    alloc: Global,
    arguments: &[&str],
    out: &mut Vec<u8>,
) -> Result<(), Fault> {
    match arguments {
        [order, bytes, count] => {
            let bytes = bytes_of(alloc, bytes)?;
            put_all_bits(made_bits(order, &bytes, len_of(count)?)?, out)
        }
        [order, bytes, count, other_order, other_bytes, other_count] => {
            let (bytes, other_bytes) = (bytes_of(alloc, bytes)?, bytes_of(alloc, other_bytes)?);
            let one = made_bits(order, &bytes, len_of(count)?)?;
            let other = made_bits(other_order, &other_bytes, len_of(other_count)?)?;
            let is_same = one == other;
            if is_same != (other == one) || is_same == (one != other) {
                put_text("not the other way round ", out)?;
            }
            put_text(if is_same { "equal" } else { "different" }, out)
        }
        _ => Err(Fault::NoCase),
    }
}
