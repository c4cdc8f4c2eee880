//! Constants and their numbers.

use crate::json_values::put_constant as put_constant_of_json;
use crate::words::{Fault, done, number_of, put_number, put_text};
use rows_constants::{BinlogChecksumAlg, BinlogVersion, EventType, OptionalMetadataFieldType};
use rows_constants_extra::{
    BinlogRowValueOptions, Gno, IncidentType, IntvarEventType, LoadDuplicateHandling, StatusVarKey,
    TransactionPayloadCompressionType, TransactionPayloadFields,
};
use std::alloc::Global;
use std::fmt::{Debug, Display};
use std::io::Write;
use wire_constants::{ColumnType, Constant, GeometryType};

/// Appends the name of the constant with this number, or the text of the error; returns whether there is such a constant.
fn put_constant<P: PartialEq + Drop, C: Constant<P> + Debug, E: Display + Drop>(
    number: P,
    constant: Result<C, E>,
    out: &mut Vec<u8>,
) -> Result<bool, Fault> {
    match constant {
        Ok(constant) => {
            done(write!(out, "{constant:?}"))?;
            if constant.to_number() != number {
                put_text(" of another number", out)?;
            }
            Ok(true)
        }
        Err(error) => {
            done(write!(out, "{error}"))?;
            Ok(false)
        }
    }
}

/// Appends the constant of a kind with one-byte numbers.
fn put_byte(kind: &str, number: u8, out: &mut Vec<u8>) -> Result<bool, Fault> {
    match kind {
        "BinlogChecksumAlg" => put_constant(number, BinlogChecksumAlg::try_from(number), out),
        "ColumnType" => put_constant(number, ColumnType::try_from(number), out),
        "EventType" => put_constant(number, EventType::try_from(number), out),
        "GeometryType" => put_constant(number, GeometryType::try_from(number), out),
        "IntvarEventType" => put_constant(number, IntvarEventType::try_from(number), out),
        "LoadDuplicateHandling" => {
            put_constant(number, LoadDuplicateHandling::try_from(number), out)
        }
        "OptionalMetadataFieldType" => {
            put_constant(number, OptionalMetadataFieldType::try_from(number), out)
        }
        "StatusVarKey" => put_constant(number, StatusVarKey::try_from(number), out),
        "TransactionPayloadCompressionType" => {
            let kind = TransactionPayloadCompressionType::try_from(number);
            put_constant(number, kind, out)
        }
        "TransactionPayloadFields" => {
            put_constant(number, TransactionPayloadFields::try_from(number), out)
        }
        _ => put_constant_of_json(kind, number, out),
    }
}

/// Appends the constant of a kind with two-byte numbers.
fn put_two_bytes(kind: &str, number: u16, out: &mut Vec<u8>) -> Result<bool, Fault> {
    match kind {
        "BinlogVersion" => put_constant(number, BinlogVersion::try_from(number), out),
        "IncidentType" => put_constant(number, IncidentType::try_from(number), out),
        _ => Err(Fault::NoCase),
    }
}

/// Appends the number of a transaction, or the text of the error.
fn put_gno(number: u64, out: &mut Vec<u8>) -> Result<bool, Fault> {
    match Gno::try_from(number) {
        Ok(gno) => {
            done(write!(out, "{gno:?}"))?;
            Ok(true)
        }
        Err(error) => {
            done(write!(out, "{error}"))?;
            Ok(false)
        }
    }
}

/// Appends the constant of a kind with eight-byte numbers.
fn put_eight_bytes(kind: &str, number: u64, out: &mut Vec<u8>) -> Result<bool, Fault> {
    let byte = u8::try_from(number).unwrap_or(255);
    match kind {
        "BinlogRowValueOptions" => {
            put_constant(number, BinlogRowValueOptions::try_from(number), out)
        }
        "Gno" => put_gno(number, out),
        "long_TransactionPayloadCompressionType" => {
            put_constant(
                byte,
                TransactionPayloadCompressionType::try_from(number),
                out,
            )
        }
        "long_TransactionPayloadFields" => {
            put_constant(byte, TransactionPayloadFields::try_from(number), out)
        }
        _ => Err(Fault::NoCase),
    }
}

/// Appends the constant of a kind with this number, or the text of the error; returns whether there is one.
fn put_constant_of(kind: &str, number: u64, out: &mut Vec<u8>) -> Result<bool, Fault> {
    match kind {
        "BinlogVersion" | "IncidentType" => match u16::try_from(number) {
            Ok(number) => put_two_bytes(kind, number, out),
            Err(_) => Err(Fault::NoCase),
        },
        "BinlogRowValueOptions"
        | "Gno"
        | "long_TransactionPayloadCompressionType"
        | "long_TransactionPayloadFields" => put_eight_bytes(kind, number, out),
        _ => match u8::try_from(number) {
            Ok(number) => put_byte(kind, number, out),
            Err(_) => Err(Fault::NoCase),
        },
    }
}

/// `number KIND NUMBER`: the name of the constant of this kind with this number, or the text of the error. With `long_` before
/// the kind: by its number in eight bytes.
pub(crate) fn put_named(arguments: &[&str], out: &mut Vec<u8>) -> Result<(), Fault> {
    let [kind, number] = arguments else {
        return Err(Fault::NoCase);
    };
    let _is_constant = put_constant_of(kind, number_of(number)?, out)?;
    Ok(())
}

/// Whether a constant of this kind has the number; an error must have the number.
fn is_constant(alloc: Global, kind: &str, number: u64, out: &mut Vec<u8>) -> Result<bool, Fault> {
    let (mut result_of, mut digits) = (Vec::new(alloc), Vec::new(alloc));
    put_number(number, &mut digits)?;
    let is_constant = put_constant_of(kind, number, &mut result_of)?;
    if !is_constant && !result_of.ends_with(&digits) {
        put_text(" another error", out)?;
    }
    Ok(is_constant)
}

/// Whether a column type has the number, and is of the kind that a call names.
fn is_type(kind: &str, number: u64) -> Result<bool, Fault> {
    let Ok(byte) = u8::try_from(number) else {
        return Err(Fault::NoCase);
    };
    let Ok(column_type) = ColumnType::try_from(byte) else {
        return Ok(false);
    };
    match kind {
        "is_numeric_type" => Ok(column_type.is_numeric_type()),
        "is_character_type" => Ok(column_type.is_character_type()),
        "is_enum_or_set_type" => Ok(column_type.is_enum_or_set_type()),
        "is_enum_type" => Ok(column_type.is_enum_type()),
        "is_set_type" => Ok(column_type.is_set_type()),
        "is_geometry_type" => Ok(column_type.is_geometry_type()),
        "is_vector_type" => Ok(column_type.is_vector_type()),
        _ => Err(Fault::NoCase),
    }
}

/// Whether a number belongs to the line `numbers KIND`.
fn is_listed(alloc: Global, kind: &str, number: u64, out: &mut Vec<u8>) -> Result<bool, Fault> {
    if kind.starts_with("is_") {
        return is_type(kind, number);
    }
    is_constant(alloc, kind, number, out)
}

/// `numbers KIND`: which of the numbers below 256 are constants of this kind: `0..3` are 0, 1 and 2. KIND may also be a call of
/// `ColumnType`: the numbers of the types for which it returns true.
pub(crate) fn put_numbers(
    alloc: Global,
    arguments: &[&str],
    out: &mut Vec<u8>,
) -> Result<(), Fault> {
    let [kind] = arguments else {
        return Err(Fault::NoCase);
    };
    let mut ranges = Vec::new(alloc);
    let mut was_constant = false;
    for number in 0..=256u64 {
        let is_constant = number < 256 && is_listed(alloc, kind, number, &mut ranges)?;
        if is_constant && !was_constant {
            ranges.push(b' ')?;
            put_number(number, &mut ranges)?;
        }
        if !is_constant && was_constant {
            put_text("..", &mut ranges)?;
            put_number(number, &mut ranges)?;
        }
        was_constant = is_constant;
    }
    Ok(out.extend_from_slice(ranges.get(1..).unwrap_or(b""))?)
}
