//! Headers of events, the parts of events, and the magic number of a file.

use crate::event_devices::{NarrowWriter, Trickle, steps_of};
use crate::event_memory::put_value_written;
use crate::event_words::{footer_of, put_bytes_field, put_field, put_footer, put_unless};
use crate::words::{Fault, bytes_of, only_bytes_of, put_bytes, put_rest, put_text, small_len_of};
use events_frames::{BinlogEventHeader, BinlogFileHeader, EventError, EventParts, read_body};
use std::alloc::Global;
use wire_buf::ParseBuf;

/// Appends the fields of a header.
fn put_header_fields(header: &BinlogEventHeader, out: &mut Vec<u8>) -> Result<(), Fault> {
    put_field("time ", header.timestamp(), out)?;
    put_field(" type ", header.event_type_raw(), out)?;
    put_field(" ", header.event_type(), out)?;
    put_field(" server ", header.server_id(), out)?;
    put_field(" size ", header.event_size(), out)?;
    put_field(" position ", header.log_pos(), out)?;
    put_field(" flags ", header.flags_raw(), out)?;
    put_field(" known ", u16::from(header.flags()), out)
}

/// The header that is made of another one's fields.
fn made(header: &BinlogEventHeader) -> BinlogEventHeader {
    BinlogEventHeader::new(
        header.timestamp(),
        header.event_type_raw(),
        header.server_id(),
        header.event_size(),
        header.log_pos(),
        header.flags_raw(),
    )
}

/// Appends a remark if the bytes, read as a body, have another result than the header and the bytes after it.
fn put_unless_body(
    alloc: Global,
    bytes: &[u8],
    header: Option<BinlogEventHeader>,
    out: &mut Vec<u8>,
) -> Result<(), Fault> {
    let wanted = match header {
        Some(header) if bytes.len() == 19 => Ok(header),
        Some(_) => Err(EventError::RemainingBytes),
        None => Err(EventError::EndOfBody),
    };
    let is_same = read_body::<BinlogEventHeader>(alloc, (), bytes) == wanted;
    put_unless(is_same, "another result as a body", out)
}

/// `header BYTES`: the fields of the header that the bytes begin with, and the bytes after it.
pub(crate) fn put_header(
    alloc: Global,
    arguments: &[&str],
    out: &mut Vec<u8>,
) -> Result<(), Fault> {
    let bytes = only_bytes_of(alloc, arguments)?;
    let mut buf = ParseBuf(&bytes);
    match buf.parse::<BinlogEventHeader>(alloc, ()) {
        Ok(header) => {
            put_header_fields(&header, out)?;
            put_value_written(alloc, &header, 19, bytes.get(..19).unwrap_or(b""), out)?;
            put_unless(
                made(&header) == header,
                "the constructor makes another",
                out,
            )?;
            put_rest(buf.0, out)?;
            put_unless_body(alloc, &bytes, Some(header), out)
        }
        Err(fault) => {
            put_field("", fault, out)?;
            put_unless_body(alloc, &bytes, None, out)
        }
    }
}

/// `parts FOOTER EVENT`: the type and the position in the header of an event, its body, its checksum and its footer, if the
/// footer in force is `none`, `off` or `crc`.
pub(crate) fn put_parts(alloc: Global, arguments: &[&str], out: &mut Vec<u8>) -> Result<(), Fault> {
    let [footer, event] = arguments else {
        return Err(Fault::NoCase);
    };
    let event = bytes_of(alloc, event)?;
    let parts = EventParts::split(&event, footer_of(footer)?)?;
    let header = parts.header();
    put_field("type ", header.event_type_raw(), out)?;
    put_field(" position ", header.log_pos(), out)?;
    put_bytes_field(" body ", parts.body(), out)?;
    put_field(" checksum ", parts.checksum(), out)?;
    put_footer(parts.footer(), out)?;
    let is_whole = header.event_size() as usize == event.len();
    put_unless(is_whole, "of another size", out)?;
    let is_description = parts.is_description() == (header.event_type_raw() == 15);
    put_unless(is_description, "it is a description or not", out)?;
    let made = EventParts::new(header, parts.body(), parts.footer(), parts.checksum());
    put_unless(made == parts, "the constructor makes other parts", out)
}

/// `magic STEPS BYTES`: `read`, if the bytes begin with the magic number of a file, and the bytes after it.
pub(crate) fn put_magic(alloc: Global, arguments: &[&str], out: &mut Vec<u8>) -> Result<(), Fault> {
    let [steps, bytes] = arguments else {
        return Err(Fault::NoCase);
    };
    let (steps, bytes) = (steps_of(alloc, steps)?, bytes_of(alloc, bytes)?);
    let mut reader = Trickle::new(&bytes, &steps);
    let result = BinlogFileHeader::read(&mut reader);
    match result {
        Ok(_) => put_text("read", out)?,
        Err(fault) => put_field("", fault, out)?,
    }
    put_rest(reader.rest(), out)?;
    let at_once = BinlogFileHeader::read(&mut bytes.as_slice());
    let is_same = result == at_once || result == Err(EventError::Read);
    put_unless(is_same, "another result at once", out)
}

/// `write_magic ROOM`: the magic number of a file as it is written by a writer that accepts so many bytes and then fails.
pub(crate) fn put_written_magic(
    alloc: Global,
    arguments: &[&str],
    out: &mut Vec<u8>,
) -> Result<(), Fault> {
    let [room] = arguments else {
        return Err(Fault::NoCase);
    };
    let mut writer = NarrowWriter::new(alloc, small_len_of(room)?);
    BinlogFileHeader.write(&mut writer)?;
    put_bytes(writer.written(), out)?;
    put_unless(BinlogFileHeader.len() == 4, "of another length", out)
}
