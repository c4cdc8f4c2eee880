//! Conversions of errors to those of the layers above.

use crate::words::{Fault, done};
use events_frames::EventError;
use feed_checks::Verdict;
use feed_replication::RequestError;
use rows_cells::BinlogValueToValueError;
use rows_errors::RowsError;
use rows_event_body::BinlogRowToRowError;
use rows_table_map::BadColumnType;
use rows_values::ParseDecimalError;
use std::alloc::AllocError;
use std::io::Write;
use wire_constants::UnknownColumnType;
use wire_packets::PacketCodecError;

/// The error of a row with this name.
fn rows_error_of(name: &str) -> Result<RowsError, Fault> {
    match name {
        "EndOfBody" => Ok(RowsError::EndOfBody),
        "RemainingBytes" => Ok(RowsError::RemainingBytes),
        "UnknownNumber" => Ok(RowsError::UnknownNumber),
        "Metadata" => Ok(RowsError::Metadata),
        "Cell" => Ok(RowsError::Cell),
        "Jsonb" => Ok(RowsError::Jsonb(None)),
        "Decimal" => Ok(RowsError::Decimal),
        "EmptyPair" => Ok(RowsError::EmptyPair),
        "Memory" => Ok(RowsError::Memory),
        "Read" => Ok(RowsError::Read),
        _ => Err(Fault::NoCase),
    }
}

/// The error of an event with this name.
fn event_error_of(name: &str) -> Result<EventError, Fault> {
    match name {
        "Eof" => Ok(EventError::Eof),
        "Frame" => Ok(EventError::Frame),
        "EndOfBody" => Ok(EventError::EndOfBody),
        "RemainingBytes" => Ok(EventError::RemainingBytes),
        "Invalid" => Ok(EventError::Invalid),
        "Algorithm" => Ok(EventError::Algorithm),
        "TooLong" => Ok(EventError::TooLong),
        "Memory" => Ok(EventError::Memory),
        "Read" => Ok(EventError::Read),
        "Write" => Ok(EventError::Write),
        _ => Err(Fault::NoCase),
    }
}

/// The error of a decimal's text with this name.
fn decimal_error_of(name: &str) -> Result<ParseDecimalError, Fault> {
    match name {
        "Text" => Ok(ParseDecimalError::Text),
        "Memory" => Ok(ParseDecimalError::Memory),
        _ => Err(Fault::NoCase),
    }
}

/// Appends the error of a type that means that memory ran out.
fn put_refused(of: &str, out: &mut Vec<u8>) -> Result<(), Fault> {
    match of {
        "PacketCodecError" => done(write!(out, "{:?}", PacketCodecError::from(AllocError))),
        "RequestError" => done(write!(out, "{:?}", RequestError::from(AllocError))),
        "ParseDecimalError" => done(write!(out, "{:?}", ParseDecimalError::from(AllocError))),
        "BinlogValueToValueError" => done(write!(
            out,
            "{:?}",
            BinlogValueToValueError::from(AllocError)
        )),
        "BinlogRowToRowError" => done(write!(out, "{:?}", BinlogRowToRowError::from(AllocError))),
        "Verdict" => done(write!(out, "{}", Verdict::from(AllocError))),
        _ => Err(Fault::NoCase),
    }
}

/// `convert OF ERROR TO`: the error or the verdict that an error becomes.
pub(crate) fn put_converted(arguments: &[&str], out: &mut Vec<u8>) -> Result<(), Fault> {
    match arguments {
        ["AllocError", to] => put_refused(to, out),
        ["RowsError", error, "EventError"] => {
            let error = EventError::from(rows_error_of(error)?);
            done(write!(out, "{error:?}"))
        }
        ["RowsError", error, "Verdict"] => {
            done(write!(out, "{}", Verdict::from(rows_error_of(error)?)))
        }
        ["EventError", error, "Verdict"] => {
            done(write!(out, "{}", Verdict::from(event_error_of(error)?)))
        }
        ["ParseDecimalError", error, "RowsError"] => {
            let error = RowsError::from(decimal_error_of(error)?);
            done(write!(out, "{error:?}"))
        }
        ["UnknownColumnType", "BadColumnType"] => {
            let error = BadColumnType::from(UnknownColumnType(200));
            done(write!(out, "{error:?}"))
        }
        _ => Err(Fault::NoCase),
    }
}
