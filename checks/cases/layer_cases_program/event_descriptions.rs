//! Format descriptions, and the footers that they are the source of.

use crate::event_bodies::{Body, put_built_as};
use crate::event_memory::written;
use crate::event_words::{
    description_with, footer_of, put_bytes_field, put_field, put_footer, put_text_field, put_unless,
};
use crate::words::{Fault, bytes_of, number_of, only_bytes_of, put_bytes, put_text, put_written};
use events_frames::{BinlogEventFooter, EventParts, FormatDescriptionEvent};
use rows_constants::{BinlogChecksumAlg, BinlogVersion, EventType};
use std::alloc::{AllocError, Global};
use std::borrow::CowSlice;
use wire_buf::MySerialize;

impl<'a> Body<'a> for FormatDescriptionEvent<'a> {
    fn put_fields(&self, alloc: Global, out: &mut Vec<u8>) -> Result<(), Fault> {
        put_field(" ", self.binlog_version(), out)?;
        let version = self.server_version(alloc)?;
        put_text_field(" server ", self.server_version_raw(), version, out)?;
        put_field(" ", self.split_version(), out)?;
        put_field(" created ", self.create_timestamp(), out)?;
        put_field(" headers ", self.event_header_length(), out)?;
        put_bytes_field(" lengths ", self.event_type_header_lengths(), out)?;
        put_footer(self.footer(), out)?;
        let len = 57 + self.event_type_header_lengths().len();
        put_unless(self.len() == len, "of another length", out)
    }

    fn owned(self, alloc: Global) -> Result<FormatDescriptionEvent<'a>, AllocError> {
        self.into_owned(alloc)
    }

    fn put_built(&self, alloc: Global, out: &mut Vec<u8>) -> Result<(), Fault> {
        let built = FormatDescriptionEvent::new(BinlogVersion::Version1)
            .with_binlog_version(self.binlog_version())
            .with_server_version(CowSlice::Borrowed(self.server_version_raw()))
            .with_create_timestamp(self.create_timestamp())
            .with_event_type_header_lengths(CowSlice::Borrowed(self.event_type_header_lengths()))
            .with_footer(self.footer());
        put_built_as(alloc, &built, self, built.footer() == self.footer(), out)
    }
}

/// The bytes of an event with these parts and this format description.
fn whole(
    alloc: Global,
    parts: &EventParts<'_>,
    description: &FormatDescriptionEvent<'_>,
) -> Result<Vec<u8>, Fault> {
    let mut bytes = written(alloc, &parts.header())?;
    description.serialize(&mut bytes)?;
    if let Some(algorithm) = description.footer().checksum_alg_raw() {
        bytes.push(algorithm)?;
    }
    if let Some(checksum) = parts.checksum() {
        bytes.extend_from_slice(&checksum.to_le_bytes())?;
    }
    Ok(bytes)
}

/// `description EVENT`: the fields of the format description in an event, its checksum, and what is written for it if it differs.
pub(crate) fn put_description(
    alloc: Global,
    arguments: &[&str],
    out: &mut Vec<u8>,
) -> Result<(), Fault> {
    let event = only_bytes_of(alloc, arguments)?;
    let parts = EventParts::split(&event, BinlogEventFooter::default())?;
    let read = parts.description(alloc)?;
    put_unless(parts.is_description(), "of another type", out)?;
    put_text("read", out)?;
    read.put_fields(alloc, out)?;
    put_field(" checksum ", parts.checksum(), out)?;
    read.put_built(alloc, out)?;
    put_unless(read.len() == parts.body().len(), "of another length", out)?;
    put_written(&whole(alloc, &parts, &read)?, &event, out)?;
    let owned = parts.description(alloc)?.into_owned(alloc)?;
    put_unless(owned == read, "it isn't the same when owned", out)?;
    put_written(&whole(alloc, &parts, &owned)?, &event, out)
}

/// The version of the format with this number.
fn version_of(number: u64) -> Result<BinlogVersion, Fault> {
    match number {
        1 => Ok(BinlogVersion::Version1),
        2 => Ok(BinlogVersion::Version2),
        3 => Ok(BinlogVersion::Version3),
        4 => Ok(BinlogVersion::Version4),
        _ => Err(Fault::NoCase),
    }
}

/// `written_description NUMBER VERSION SECONDS LENGTHS FOOTER`: the bytes that are written for a format description with this
/// version of the format, this server version, this time and these post-header lengths, in a log with this footer.
pub(crate) fn put_written_description(
    alloc: Global,
    arguments: &[&str],
    out: &mut Vec<u8>,
) -> Result<(), Fault> {
    let [number, version, seconds, lengths, footer] = arguments else {
        return Err(Fault::NoCase);
    };
    let (version, lengths) = (bytes_of(alloc, version)?, bytes_of(alloc, lengths)?);
    let Ok(seconds) = u32::try_from(number_of(seconds)?) else {
        return Err(Fault::NoCase);
    };
    let created = FormatDescriptionEvent::new(version_of(number_of(number)?)?)
        .with_create_timestamp(seconds)
        .with_server_version(CowSlice::Borrowed(&version))
        .with_event_type_header_lengths(CowSlice::Borrowed(&lengths))
        .with_footer(footer_of(footer)?);
    let bytes = written(alloc, &created)?;
    put_bytes(&bytes, out)?;
    put_unless(created.len() == bytes.len(), "of another length", out)?;
    let is_kept = created.server_version_raw() == version.as_slice()
        && created.footer() == footer_of(footer)?
        && created.event_type_header_lengths() == lengths.as_slice();
    put_unless(is_kept, "of another server", out)
}

/// `post_header_lengths LENGTHS`: the number of each event type, `:` and its post-header length by a format description with
/// these, if it isn't 0.
pub(crate) fn put_post_header_lengths(
    alloc: Global,
    arguments: &[&str],
    out: &mut Vec<u8>,
) -> Result<(), Fault> {
    let lengths = only_bytes_of(alloc, arguments)?;
    let description = description_with(&lengths);
    let mut separator = "";
    for number in 0..=255u8 {
        let Ok(event_type) = EventType::try_from(number) else {
            continue;
        };
        let len = description.get_event_type_header_length(event_type);
        if len > 0 {
            put_field(separator, number, out)?;
            put_field(":", len, out)?;
            separator = " ";
        }
    }
    Ok(())
}

/// Whether the footer of this algorithm, or of none, is this one.
fn is_of(footer: BinlogEventFooter, algorithm: Option<BinlogChecksumAlg>) -> bool {
    match algorithm {
        Some(algorithm) => BinlogEventFooter::new(algorithm) == footer,
        None => BinlogEventFooter::default() == footer,
    }
}

/// Appends a remark if the footer that a constructor or a setter makes of it isn't as wanted.
fn put_unless_made(footer: BinlogEventFooter, out: &mut Vec<u8>) -> Result<(), Fault> {
    let is_made = match footer.get_checksum_alg() {
        Ok(algorithm) => is_of(footer, algorithm),
        Err(_) => true,
    };
    put_unless(is_made, "the constructor makes another footer", out)?;
    let mut changed = footer;
    changed.set_checksum_enabled(false);
    let is_off = !changed.has_checksums() && !changed.get_checksum_enabled() && changed != footer;
    put_unless(is_off, "it isn't disabled", out)?;
    changed.set_checksum_enabled(true);
    put_unless(changed == footer, "it isn't enabled again", out)
}

/// `footer CONTENT`: the footer that the content of a format description has: its number, and whether events have checksums.
pub(crate) fn put_footer_of(
    alloc: Global,
    arguments: &[&str],
    out: &mut Vec<u8>,
) -> Result<(), Fault> {
    let content = only_bytes_of(alloc, arguments)?;
    let footer = BinlogEventFooter::read(&content)?;
    put_field("algorithm ", footer.checksum_alg_raw(), out)?;
    put_field(" ", footer.get_checksum_alg(), out)?;
    put_field(" enabled ", footer.get_checksum_enabled(), out)?;
    put_field(" checksums ", footer.has_checksums(), out)?;
    put_unless_made(footer, out)
}
