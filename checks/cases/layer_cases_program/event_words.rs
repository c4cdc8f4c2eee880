//! What the calls of events share: named fields of a result, and remarks on what shouldn't be.

use crate::words::{Fault, bytes_of, done, put_bytes, put_name, put_text};
use events_frames::{BinlogEventFooter, FormatDescriptionEvent};
use rows_constants::{BinlogChecksumAlg, BinlogVersion};
use std::alloc::Global;
use std::borrow::{CowSlice, CowStr};
use std::fmt::Debug;
use std::io::Write;

/// Appends the `Debug` text of a value.
pub(crate) fn put_debug<T: Debug>(value: &T, out: &mut Vec<u8>) -> Result<(), Fault> {
    done(write!(out, "{value:?}"))
}

/// Appends the name and the `Debug` text of a field.
pub(crate) fn put_field<T: Debug>(name: &str, value: T, out: &mut Vec<u8>) -> Result<(), Fault>
where
    T: Copy,
{
    put_text(name, out)?;
    put_debug(&value, out)
}

/// Appends the name and the hexadecimal digits of a field.
pub(crate) fn put_bytes_field(name: &str, bytes: &[u8], out: &mut Vec<u8>) -> Result<(), Fault> {
    put_text(name, out)?;
    put_bytes(bytes, out)
}

/// Appends the name of a field, its bytes between quotes, and their text if it differs.
pub(crate) fn put_text_field(
    name: &str,
    bytes: &[u8],
    text: CowStr<'_, Global>,
    out: &mut Vec<u8>,
) -> Result<(), Fault> {
    put_text(name, out)?;
    put_name(bytes, text, out)
}

/// Appends a remark, unless what it denies is right. No case has one as its result.
pub(crate) fn put_unless(is_right: bool, remark: &str, out: &mut Vec<u8>) -> Result<(), Fault> {
    if is_right {
        return Ok(());
    }
    put_text(" BUT ", out)?;
    put_text(remark, out)
}

/// Appends the algorithm and the checksum that an event has, if it has them.
pub(crate) fn put_footer(footer: BinlogEventFooter, out: &mut Vec<u8>) -> Result<(), Fault> {
    match footer.get_checksum_alg() {
        Ok(Some(BinlogChecksumAlg::BINLOG_CHECKSUM_ALG_OFF)) => put_text(" footer off", out),
        Ok(Some(BinlogChecksumAlg::BINLOG_CHECKSUM_ALG_CRC32)) => put_text(" footer crc", out),
        Ok(None) => put_text(" footer none", out),
        Err(unknown) => put_field(" footer ", unknown, out),
    }
}

/// The footer that a word names.
pub(crate) fn footer_of(word: &str) -> Result<BinlogEventFooter, Fault> {
    match word {
        "none" => Ok(BinlogEventFooter::default()),
        "off" => Ok(BinlogEventFooter::new(BinlogChecksumAlg::BINLOG_CHECKSUM_ALG_OFF)),
        "crc" => Ok(BinlogEventFooter::new(BinlogChecksumAlg::BINLOG_CHECKSUM_ALG_CRC32)),
        _ => Err(Fault::NoCase),
    }
}

/// A format description with these post-header lengths.
pub(crate) fn description_with(lengths: &[u8]) -> FormatDescriptionEvent<'_> {
    FormatDescriptionEvent::new(BinlogVersion::Version4).with_event_type_header_lengths(
        CowSlice::Borrowed(lengths),
    )
}

/// The name, the bytes and the post-header lengths of a case; there are none of these if it has no third argument.
pub(crate) fn body_of<'a>(
    alloc: Global,
    arguments: &[&'a str],
) -> Result<(&'a str, Vec<u8>, Vec<u8>), Fault> {
    match arguments {
        [name, bytes] => Ok((*name, bytes_of(alloc, bytes)?, Vec::new(alloc))),
        [name, bytes, lengths] => Ok((*name, bytes_of(alloc, bytes)?, bytes_of(alloc, lengths)?)),
        _ => Err(Fault::NoCase),
    }
}
