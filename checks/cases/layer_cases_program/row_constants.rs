//! Conversions of constants and of errors to numbers, and the named numbers of rows and events.

use crate::wire_constants::narrow;
use crate::words::{Fault, done, put_number, put_text};
use rows_constants::{
    BINLOG_CHECKSUM_ALG_DESC_LEN, BINLOG_CHECKSUM_LEN, BinlogChecksumAlg, BinlogVersion,
    CHECKSUM_VERSION_PRODUCT, ENCODED_SID_LENGTH, EventType, GTID_HEADER_LEN,
    LOGICAL_TIMESTAMP_TYPECODE, OptionalMetadataFieldType, QUERY_HEADER_LEN, ROTATE_HEADER_LEN,
    ROWS_HEADER_LEN_V1, ROWS_HEADER_LEN_V2, SERVER_VER_LEN, TABLE_MAP_HEADER_LEN,
};
use rows_constants_extra::{
    BinlogRowValueOptions, Gno, IncidentType, IntvarEventType, LoadDuplicateHandling,
    TransactionPayloadFields,
};
use rows_values::{
    DATETIMEF_INT_OFS, DIG_BASE, DIG_PER_DEC, DIG_TO_BYTES, POWERS_10, TIMEF_INT_OFS, TIMEF_OFS,
};
use std::fmt::Display;
use std::io::Write;

/// Appends the number of a constant, or of an error after `error`.
fn put_converted<P: Display + Drop, C, E>(
    converted: Result<C, E>,
    out: &mut Vec<u8>,
) -> Result<(), Fault>
where
    P: From<C> + From<E>,
{
    match converted {
        Ok(constant) => done(write!(out, "{}", P::from(constant))),
        Err(error) => done(write!(out, "error {}", P::from(error))),
    }
}

/// Appends `constant`, or the number of an error after `error`.
fn put_error_number<P: Display + Drop, C: Drop, E>(
    converted: Result<C, E>,
    out: &mut Vec<u8>,
) -> Result<(), Fault>
where
    P: From<E>,
{
    match converted {
        Ok(_) => put_text("constant", out),
        Err(error) => done(write!(out, "error {}", P::from(error))),
    }
}

/// `converted KIND NUMBER`: the number of the constant of this kind with this number, or that of the error. Constants of some
/// kinds have no conversion to their number: for those `constant`.
pub(crate) fn put_number_of(arguments: &[&str], out: &mut Vec<u8>) -> Result<(), Fault> {
    let [kind, word] = arguments else {
        return Err(Fault::NoCase);
    };
    match *kind {
        "BinlogVersion" => {
            put_converted::<u16, _, _>(BinlogVersion::try_from(narrow::<u16>(word)?), out)
        }
        "LoadDuplicateHandling" => {
            put_converted::<u8, _, _>(LoadDuplicateHandling::try_from(narrow::<u8>(word)?), out)
        }
        "IncidentType" => {
            put_converted::<u16, _, _>(IncidentType::try_from(narrow::<u16>(word)?), out)
        }
        "IntvarEventType" => {
            put_converted::<u8, _, _>(IntvarEventType::try_from(narrow::<u8>(word)?), out)
        }
        "EventType" => {
            put_error_number::<u8, _, _>(EventType::try_from(narrow::<u8>(word)?), out)
        }
        "BinlogChecksumAlg" => {
            put_error_number::<u8, _, _>(BinlogChecksumAlg::try_from(narrow::<u8>(word)?), out)
        }
        "OptionalMetadataFieldType" => {
            let kind = OptionalMetadataFieldType::try_from(narrow::<u8>(word)?);
            put_error_number::<u8, _, _>(kind, out)
        }
        "BinlogRowValueOptions" => {
            let options = BinlogRowValueOptions::try_from(narrow::<u64>(word)?);
            put_error_number::<u64, _, _>(options, out)
        }
        "Gno" => put_error_number::<u64, _, _>(Gno::try_from(narrow::<u64>(word)?), out),
        _ => put_payload_field(kind, word, out),
    }
}

/// Appends the number of a field of a transaction payload, from a number of one byte and from one of eight.
fn put_payload_field(kind: &str, word: &str, out: &mut Vec<u8>) -> Result<(), Fault> {
    let (short, long) = (
        TransactionPayloadFields::try_from(narrow::<u8>(word)?),
        TransactionPayloadFields::try_from(narrow::<u64>(word)?),
    );
    match (kind, short, long) {
        ("TransactionPayloadFields", Ok(short), Ok(long)) => {
            done(write!(out, "{} {}", u8::from(short), u64::from(long)))
        }
        _ => Err(Fault::NoCase),
    }
}

/// Appends numbers with spaces between them.
fn put_all<N: Display>(numbers: &[N], out: &mut Vec<u8>) -> Result<(), Fault> {
    for (index, number) in numbers.iter().enumerate() {
        if index > 0 {
            out.push(b' ')?;
        }
        done(write!(out, "{number}"))?;
    }
    Ok(())
}

/// Appends the value of the number with this name.
fn put_named_value(name: &str, out: &mut Vec<u8>) -> Result<(), Fault> {
    match name {
        "TIMEF_INT_OFS" => done(write!(out, "{TIMEF_INT_OFS}")),
        "TIMEF_OFS" => done(write!(out, "{TIMEF_OFS}")),
        "DATETIMEF_INT_OFS" => done(write!(out, "{DATETIMEF_INT_OFS}")),
        "DIG_PER_DEC" => put_number(DIG_PER_DEC as u64, out),
        "DIG_BASE" => put_number(DIG_BASE as u64, out),
        "DIG_TO_BYTES" => put_all(&DIG_TO_BYTES, out),
        "POWERS_10" => put_all(&POWERS_10, out),
        "MIN_GNO" => put_number(Gno::MIN_GNO, out),
        "MAX_GNO" => put_number(Gno::MAX_GNO, out),
        "LOGICAL_TIMESTAMP_TYPECODE" => put_number(u64::from(LOGICAL_TIMESTAMP_TYPECODE), out),
        "CHECKSUM_VERSION_PRODUCT" => {
            let (major, minor, patch) = CHECKSUM_VERSION_PRODUCT;
            put_all(&[major, minor, patch], out)
        }
        _ => Err(Fault::NoCase),
    }
}

/// `named NAME`: the value of the number or of the numbers with this name.
pub(crate) fn put_named(arguments: &[&str], out: &mut Vec<u8>) -> Result<(), Fault> {
    let [name] = arguments else {
        return Err(Fault::NoCase);
    };
    let len = match *name {
        "SERVER_VER_LEN" => SERVER_VER_LEN,
        "QUERY_HEADER_LEN" => QUERY_HEADER_LEN,
        "ROTATE_HEADER_LEN" => ROTATE_HEADER_LEN,
        "TABLE_MAP_HEADER_LEN" => TABLE_MAP_HEADER_LEN,
        "ROWS_HEADER_LEN_V1" => ROWS_HEADER_LEN_V1,
        "ROWS_HEADER_LEN_V2" => ROWS_HEADER_LEN_V2,
        "GTID_HEADER_LEN" => GTID_HEADER_LEN,
        "ENCODED_SID_LENGTH" => ENCODED_SID_LENGTH,
        "BINLOG_CHECKSUM_ALG_DESC_LEN" => BINLOG_CHECKSUM_ALG_DESC_LEN,
        "BINLOG_CHECKSUM_LEN" => BINLOG_CHECKSUM_LEN,
        _ => return put_named_value(name, out),
    };
    put_number(len as u64, out)
}
