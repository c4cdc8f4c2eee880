//! Event bodies, each read as the struct of its type.

use crate::event_memory::{put_value_written, written};
use crate::event_queries::has_its_texts;
use crate::event_words::{body_of, description_with, put_debug, put_unless};
use crate::words::{Fault, put_bytes, put_text};
use events_bodies::{
    BeginLoadQueryEvent, ExecuteLoadQueryEvent, IncidentEvent, IntvarEvent, RandEvent,
    RowsQueryEvent, UserVarEvent,
};
use events_frames::{
    BinlogCtx, BinlogEvent, EventError, FormatDescriptionEvent, RotateEvent, XidEvent, read_struct,
};
use events_bodies::{AnonymousGtidEvent, GtidEvent};
use events_bodies::QueryEvent;
use events_owned::{
    DeleteRowsEvent, DeleteRowsEventV1, PartialUpdateRowsEvent, UpdateRowsEvent, UpdateRowsEventV1,
    WriteRowsEvent, WriteRowsEventV1,
};
use rows_constants::BinlogVersion;
use rows_table_map::TableMapEvent;
use std::alloc::{AllocError, Global};
use std::fmt::Debug;
use wire_buf::{MySerialize, WireFault};

/// The body of an event, with its fields by name.
pub(crate) trait Body<'a>: BinlogEvent<'a> + Debug + PartialEq + Drop {
    /// Appends the fields.
    fn put_fields(&self, alloc: Global, out: &mut Vec<u8>) -> Result<(), Fault>;

    /// The same body with bytes of its own.
    fn owned(self, alloc: Global) -> Result<Self, AllocError>;

    /// Appends what is written for the body that setters make from these fields, if this differs from what is written for the
    /// body.
    fn put_built(&self, alloc: Global, out: &mut Vec<u8>) -> Result<(), Fault>;
}

/// Appends what is written for a body that setters made, if this differs from what is written for the body that was read;
/// otherwise the two should be equal.
pub(crate) fn put_built_as<T: MySerialize, U: MySerialize>(
    alloc: Global,
    built: &T,
    read: &U,
    are_equal: bool,
    out: &mut Vec<u8>,
) -> Result<(), Fault> {
    let (built, read) = (written(alloc, built)?, written(alloc, read)?);
    if built.as_slice() == read.as_slice() {
        return put_unless(are_equal, "setters make another body", out);
    }
    put_text(" built ", out)?;
    put_bytes(&built, out)
}

/// Appends a remark if the context isn't that of the event, or the owned body isn't the same.
fn put_same<'a, T: Body<'a> + BinlogEvent<'a, Fault = WireFault>>(
    alloc: Global,
    ctx: BinlogCtx<'a>,
    bytes: &'a [u8],
    read: &T,
    out: &mut Vec<u8>,
) -> Result<(), Fault> {
    let again = read_struct::<T>(alloc, ctx, bytes)?;
    put_unless(again == *read, "it isn't the same when read again", out)?;
    let owned = again.owned(alloc)?;
    put_unless(owned == *read, "it isn't the same when owned", out)?;
    let is_kept = written(alloc, &owned)?.as_slice() == written(alloc, read)?.as_slice();
    put_unless(is_kept, "it is written otherwise when owned", out)
}

/// Appends the type of the event, its fields, and what is written for it and by its setters, if this differs from the bytes.
pub(crate) fn put_body<'a, T: Body<'a> + BinlogEvent<'a, Fault = WireFault>>(
    alloc: Global,
    ctx: BinlogCtx<'a>,
    bytes: &'a [u8],
    out: &mut Vec<u8>,
) -> Result<(), Fault> {
    let read = read_struct::<T>(alloc, ctx, bytes)?;
    put_debug(&T::EVENT_TYPE, out)?;
    read.put_fields(alloc, out)?;
    put_value_written(alloc, &read, read.len(BinlogVersion::Version4), bytes, out)?;
    read.put_built(alloc, out)?;
    put_same(alloc, ctx, bytes, &read, out)
}

/// Appends the result for a rows event.
fn put_rows_body<'a>(
    alloc: Global,
    name: &str,
    ctx: BinlogCtx<'a>,
    bytes: &'a [u8],
    out: &mut Vec<u8>,
) -> Result<(), Fault> {
    match name {
        "WriteRowsEvent" => put_body::<WriteRowsEvent<'_>>(alloc, ctx, bytes, out),
        "UpdateRowsEvent" => put_body::<UpdateRowsEvent<'_>>(alloc, ctx, bytes, out),
        "DeleteRowsEvent" => put_body::<DeleteRowsEvent<'_>>(alloc, ctx, bytes, out),
        "WriteRowsEventV1" => put_body::<WriteRowsEventV1<'_>>(alloc, ctx, bytes, out),
        "UpdateRowsEventV1" => put_body::<UpdateRowsEventV1<'_>>(alloc, ctx, bytes, out),
        "DeleteRowsEventV1" => put_body::<DeleteRowsEventV1<'_>>(alloc, ctx, bytes, out),
        "PartialUpdateRowsEvent" => put_body::<PartialUpdateRowsEvent<'_>>(alloc, ctx, bytes, out),
        _ => Err(Fault::NoCase),
    }
}

/// Appends the result for the struct with this name.
fn put_named<'a>(
    alloc: Global,
    name: &str,
    ctx: BinlogCtx<'a>,
    bytes: &'a [u8],
    out: &mut Vec<u8>,
) -> Result<(), Fault> {
    match name {
        "RotateEvent" => put_body::<RotateEvent<'_>>(alloc, ctx, bytes, out),
        "XidEvent" => put_body::<XidEvent>(alloc, ctx, bytes, out),
        "RandEvent" => put_body::<RandEvent>(alloc, ctx, bytes, out),
        "IntvarEvent" => put_body::<IntvarEvent>(alloc, ctx, bytes, out),
        "BeginLoadQueryEvent" => put_body::<BeginLoadQueryEvent<'_>>(alloc, ctx, bytes, out),
        "ExecuteLoadQueryEvent" => put_body::<ExecuteLoadQueryEvent<'_>>(alloc, ctx, bytes, out),
        "IncidentEvent" => put_body::<IncidentEvent<'_>>(alloc, ctx, bytes, out),
        "RowsQueryEvent" => put_body::<RowsQueryEvent<'_>>(alloc, ctx, bytes, out),
        "UserVarEvent" => put_body::<UserVarEvent<'_>>(alloc, ctx, bytes, out),
        "QueryEvent" => {
            put_unless(has_its_texts(alloc, bytes), "with other texts", out)?;
            put_body::<QueryEvent<'_>>(alloc, ctx, bytes, out)
        }
        "GtidEvent" => put_body::<GtidEvent<'_>>(alloc, ctx, bytes, out),
        "AnonymousGtidEvent" => put_body::<AnonymousGtidEvent<'_>>(alloc, ctx, bytes, out),
        "FormatDescriptionEvent" => put_body::<FormatDescriptionEvent<'_>>(alloc, ctx, bytes, out),
        "TableMapEvent" => put_body::<TableMapEvent<'_>>(alloc, ctx, bytes, out),
        _ => put_rows_body(alloc, name, ctx, bytes, out),
    }
}

/// `body STRUCT BYTES [LENGTHS]`: the type of the events with such a body, the fields of the body, ` written ` and the bytes that
/// are written for it if they differ, and ` built ` and those that are written for the body that its setters make from these
/// fields if they differ. The format description in force has these post-header lengths, or none.
pub(crate) fn put_body_of(
    alloc: Global,
    arguments: &[&str],
    out: &mut Vec<u8>,
) -> Result<(), Fault> {
    let (name, bytes, lengths) = body_of(alloc, arguments)?;
    let in_force = description_with(&lengths);
    let ctx = BinlogCtx::new(bytes.len(), &in_force, 7);
    put_named(alloc, name, ctx, &bytes, out)?;
    let is_kept = ctx.event_size() == bytes.len() && ctx.event_type_raw() == 7;
    put_unless(is_kept && *ctx.fde() == in_force, "in another context", out)
}

/// `event_error NAME`: the error of events for an error of a field, or for `AllocError`.
pub(crate) fn put_event_error(arguments: &[&str], out: &mut Vec<u8>) -> Result<(), Fault> {
    let fault = match arguments {
        ["Eof"] => EventError::from(WireFault::Eof),
        ["BadNumber"] => EventError::from(WireFault::BadNumber),
        ["BadConst"] => EventError::from(WireFault::BadConst),
        ["Form"] => EventError::from(WireFault::Form),
        ["Memory"] => EventError::from(WireFault::Memory),
        ["Read"] => EventError::from(WireFault::Read),
        ["Write"] => EventError::from(WireFault::Write),
        ["AllocError"] => EventError::from(AllocError),
        _ => return Err(Fault::NoCase),
    };
    put_debug(&fault, out)
}
