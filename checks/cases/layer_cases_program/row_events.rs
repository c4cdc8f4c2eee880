//! Rows events: reading and writing them.

use crate::tables::{event_of, event_type_of};
use crate::words::{
    Fault, bytes_of, done, put_bits, put_bytes, put_number, put_text, put_written, small_len_of,
};
use rows_errors::RowsError;
use rows_event_body::{RowsEvent, RowsEventType};
use rows_table_map::Bits;
use std::alloc::Global;
use std::io::Write;
use wire_buf::MySerialize;

/// Appends the event's type, and a remark if it isn't the one that it was read as.
fn put_type(event: &RowsEvent<'_>, wanted: RowsEventType, out: &mut Vec<u8>) -> Result<(), Fault> {
    let event_type = event.event_type();
    done(write!(out, "{event_type:?}"))?;
    if RowsEventType::of(event_type) != Some(wanted) || event.images() != wanted.images() {
        put_text(" of another type", out)?;
    }
    Ok(())
}

/// Appends all flags, and the known ones if others are set too.
fn put_flags(event: &RowsEvent<'_>, out: &mut Vec<u8>) -> Result<(), Fault> {
    let known = u16::from(event.flags());
    put_text(" flags ", out)?;
    put_number(u64::from(event.flags_raw()), out)?;
    if known != event.flags_raw() {
        put_text(" known ", out)?;
        put_number(u64::from(known), out)?;
    }
    Ok(())
}

/// Appends the name of an image and the bits of its columns, if the rows have it.
fn put_image(name: &str, bits: Option<Bits<'_>>, out: &mut Vec<u8>) -> Result<(), Fault> {
    match bits {
        Some(bits) => {
            put_text(name, out)?;
            put_bits(bits, out)
        }
        None => Ok(()),
    }
}

/// The bytes that are written for an event.
fn written(alloc: Global, event: &RowsEvent<'_>) -> Result<Vec<u8>, Fault> {
    let mut bytes = Vec::new(alloc);
    match event.serialize(&mut bytes) {
        Ok(()) => Ok(bytes),
        Err(fault) => Err(Fault::Wire(fault)),
    }
}

/// Appends what is written for the owned event, if this differs from the bytes that were read.
fn put_owned(
    alloc: Global,
    event: &RowsEvent<'_>,
    bytes: &[u8],
    out: &mut Vec<u8>,
) -> Result<(), Fault> {
    let written = written(alloc, event)?;
    if event.len() != written.len() {
        put_text(" of another length", out)?;
    }
    put_written(&written, bytes, out)
}

/// Appends the contents of the event.
fn put_event(event: &RowsEvent<'_>, wanted: RowsEventType, out: &mut Vec<u8>) -> Result<(), Fault> {
    put_type(event, wanted, out)?;
    put_text(" table ", out)?;
    put_number(event.table_id(), out)?;
    put_flags(event, out)?;
    put_text(" columns ", out)?;
    put_number(event.num_columns(), out)?;
    put_image(" before ", event.columns_before_image(), out)?;
    put_image(" after ", event.columns_after_image(), out)?;
    put_text(" rows ", out)?;
    put_bytes(event.rows_data(), out)
}

/// Appends the contents of the event, and what is written for it, if this differs from the bytes that were read.
fn put_whole(
    alloc: Global,
    event: RowsEvent<'_>,
    wanted: RowsEventType,
    bytes: &[u8],
    out: &mut Vec<u8>,
) -> Result<(), Fault> {
    put_event(&event, wanted, out)?;
    match event.into_owned(alloc) {
        Ok(owned) => put_owned(alloc, &owned, bytes, out),
        Err(_) => Err(Fault::Rows(RowsError::Memory)),
    }
}

/// `rows_event TYPE LEN WRITE_LEN BYTES`: the rows event of this type with these bytes, in a log with these post-header lengths
/// for the type and for `WRITE_ROWS_EVENT`: its contents, and what is written for it, if this differs from the bytes.
pub(crate) fn put_rows_event(
    alloc: Global,
    arguments: &[&str],
    out: &mut Vec<u8>,
) -> Result<(), Fault> {
    let [name, len, write_len, bytes] = arguments else {
        return Err(Fault::NoCase);
    };
    let (len, write_len) = (small_len_of(len)?, small_len_of(write_len)?);
    let event_type = event_type_of(name)?;
    let bytes = bytes_of(alloc, bytes)?;
    match event_of(alloc, name, len, write_len, &bytes) {
        Ok(event) => put_whole(alloc, event, event_type, &bytes, out),
        Err(fault) => Err(fault),
    }
}
