//! Table maps and rows events of each type.

use crate::event_bodies::Body;
use crate::event_memory::{put_value_written, written};
use crate::event_words::{description_with, put_debug, put_field, put_text_field, put_unless};
use crate::tables::event_type_of;
use crate::words::{Fault, bytes_of, put_bits, put_bytes, put_text};
use events_frames::{BinlogCtx, EventError, read_struct};
use events_owned::{
    DeleteRows, DeleteRowsV1, PartialUpdateRows, RowsEventData, RowsEventOf, RowsKind, UpdateRows,
    UpdateRowsV1, WriteRows, WriteRowsV1,
};
use rows_errors::RowsError;
use rows_event_body::{BinlogRow, ColumnPlan, RowsEvent, RowsEventRows, RowsEventType};
use rows_table_map::{Bits, TableMapEvent};
use std::alloc::{AllocError, Global};

impl<'a> Body<'a> for TableMapEvent<'a> {
    fn put_fields(&self, alloc: Global, out: &mut Vec<u8>) -> Result<(), Fault> {
        put_field(" table ", self.table_id(), out)?;
        put_text_field(
            " ",
            self.database_name_raw(),
            self.database_name(alloc)?,
            out,
        )?;
        put_text_field(" ", self.table_name_raw(), self.table_name(alloc)?, out)?;
        put_field(" columns ", self.columns_count(), out)
    }

    fn owned(self, alloc: Global) -> Result<TableMapEvent<'a>, AllocError> {
        self.into_owned(alloc)
    }

    fn put_built(&self, _alloc: Global, _out: &mut Vec<u8>) -> Result<(), Fault> {
        Ok(())
    }
}

/// Appends the name of an image and the bits of its columns, if the rows have it.
fn put_image(name: &str, bits: Option<Bits<'_>>, out: &mut Vec<u8>) -> Result<(), Fault> {
    match bits {
        Some(bits) => {
            put_text(name, out)?;
            put_bits(bits, out)
        }
        None => Ok(()),
    }
}

/// Appends the contents of a rows event of any type.
fn put_event(event: &RowsEvent<'_>, out: &mut Vec<u8>) -> Result<(), Fault> {
    put_field(" table ", event.table_id(), out)?;
    put_field(" flags ", event.flags_raw(), out)?;
    put_field(" known ", u16::from(event.flags()), out)?;
    put_field(" columns ", event.num_columns(), out)?;
    put_image(" before ", event.columns_before_image(), out)?;
    put_image(" after ", event.columns_after_image(), out)?;
    put_text(" rows ", out)?;
    put_bytes(event.rows_data(), out)
}

impl<'a, K: RowsKind> Body<'a> for RowsEventOf<'a, K> {
    fn put_fields(&self, _alloc: Global, out: &mut Vec<u8>) -> Result<(), Fault> {
        put_event(self.inner(), out)?;
        let inner = self.inner();
        let is_same = self.table_id() == inner.table_id()
            && self.event_type() == inner.event_type()
            && self.num_columns() == inner.num_columns()
            && self.flags_raw() == inner.flags_raw()
            && self.flags() == inner.flags()
            && self.rows_data() == inner.rows_data()
            && self.len() == inner.len();
        put_unless(is_same, "the same calls differ", out)
    }

    fn owned(self, alloc: Global) -> Result<RowsEventOf<'a, K>, AllocError> {
        self.into_owned(alloc)
    }

    fn put_built(&self, _alloc: Global, _out: &mut Vec<u8>) -> Result<(), Fault> {
        Ok(())
    }
}

/// Whether two sequences of bits are the same, if both are there.
fn are_same(first: Option<Bits<'_>>, second: Option<Bits<'_>>) -> bool {
    match (first, second) {
        (Some(first), Some(second)) => first.len() == second.len()
            && first.iter().eq(second.iter()),
        (None, None) => true,
        _ => false,
    }
}

/// Whether an event has these images.
fn has_images(
    event: &RowsEventData<'_>,
    before: Option<Bits<'_>>,
    after: Option<Bits<'_>>,
) -> bool {
    are_same(event.columns_before_image(), before) && are_same(event.columns_after_image(), after)
}

/// The event that is read as the struct of its type, and whether the images that the struct has are the event's.
fn by_struct<'a>(
    alloc: Global,
    event_type: RowsEventType,
    ctx: BinlogCtx<'a>,
    body: &'a [u8],
    wanted: &RowsEventData<'_>,
) -> Result<(RowsEventData<'a>, bool), EventError> {
    Ok(match event_type {
        RowsEventType::WriteRowsV1 => {
            let event = read_struct::<RowsEventOf<'_, WriteRowsV1>>(alloc, ctx, body)?;
            let is_same = has_images(wanted, None, Some(event.columns_after_image()));
            (RowsEventData::WriteRowsEventV1(event), is_same)
        }
        RowsEventType::UpdateRowsV1 => {
            let event = read_struct::<RowsEventOf<'_, UpdateRowsV1>>(alloc, ctx, body)?;
            let before = Some(event.columns_before_image());
            let is_same = has_images(wanted, before, Some(event.columns_after_image()));
            (RowsEventData::UpdateRowsEventV1(event), is_same)
        }
        RowsEventType::DeleteRowsV1 => {
            let event = read_struct::<RowsEventOf<'_, DeleteRowsV1>>(alloc, ctx, body)?;
            let is_same = has_images(wanted, Some(event.columns_before_image()), None);
            (RowsEventData::DeleteRowsEventV1(event), is_same)
        }
        _ => return by_struct_of_today(alloc, event_type, ctx, body, wanted),
    })
}

/// The same for the types without `V1`.
fn by_struct_of_today<'a>(
    alloc: Global,
    event_type: RowsEventType,
    ctx: BinlogCtx<'a>,
    body: &'a [u8],
    wanted: &RowsEventData<'_>,
) -> Result<(RowsEventData<'a>, bool), EventError> {
    Ok(match event_type {
        RowsEventType::WriteRows => {
            let event = read_struct::<RowsEventOf<'_, WriteRows>>(alloc, ctx, body)?;
            let is_same = has_images(wanted, None, Some(event.columns_after_image()));
            (RowsEventData::WriteRowsEvent(event), is_same)
        }
        RowsEventType::UpdateRows => {
            let event = read_struct::<RowsEventOf<'_, UpdateRows>>(alloc, ctx, body)?;
            let before = Some(event.columns_before_image());
            let is_same = has_images(wanted, before, Some(event.columns_after_image()));
            (RowsEventData::UpdateRowsEvent(event), is_same)
        }
        RowsEventType::DeleteRows => {
            let event = read_struct::<RowsEventOf<'_, DeleteRows>>(alloc, ctx, body)?;
            let is_same = has_images(wanted, Some(event.columns_before_image()), None);
            (RowsEventData::DeleteRowsEvent(event), is_same)
        }
        _ => {
            let event = read_struct::<RowsEventOf<'_, PartialUpdateRows>>(alloc, ctx, body)?;
            let before = Some(event.columns_before_image());
            let is_same = has_images(wanted, before, Some(event.columns_after_image()));
            (RowsEventData::PartialUpdateRowsEvent(event), is_same)
        }
    })
}

/// Appends a remark if a call of the event isn't that of the event in it.
fn put_unless_same(event: &RowsEventData<'_>, out: &mut Vec<u8>) -> Result<(), Fault> {
    let inner = event.inner();
    let is_same = event.table_id() == inner.table_id()
        && event.event_type() == inner.event_type()
        && event.num_columns() == inner.num_columns()
        && event.flags_raw() == inner.flags_raw()
        && event.flags() == inner.flags()
        && event.rows_data() == inner.rows_data()
        && has_images(
            event,
            inner.columns_before_image(),
            inner.columns_after_image(),
        );
    put_unless(is_same, "the same calls differ", out)
}

/// Appends the numbers of columns of a row's images.
fn put_row(
    row: Result<(Option<BinlogRow>, Option<BinlogRow>), RowsError>,
    out: &mut Vec<u8>,
) -> Result<(), Fault> {
    put_text(" row", out)?;
    let (before, after) = row?;
    if let Some(before) = before {
        put_field(" before ", before.len(), out)?;
    }
    if let Some(after) = after {
        put_field(" after ", after.len(), out)?;
    }
    Ok(())
}

/// Appends what there is of each row.
fn put_rows(mut rows: RowsEventRows<'_>, out: &mut Vec<u8>) -> Result<(), Fault> {
    while let Some(row) = rows.next() {
        put_row(row, out)?;
    }
    Ok(())
}

/// Appends the rows by a table map.
fn put_mapped(
    alloc: Global,
    event: &RowsEventData<'_>,
    map: &[u8],
    out: &mut Vec<u8>,
) -> Result<(), Fault> {
    let in_force = description_with(b"");
    let map = read_struct::<TableMapEvent<'_>>(alloc, BinlogCtx::new(0, &in_force, 19), map)?;
    put_rows(event.rows(alloc, &map), out)?;
    let plan = ColumnPlan::new(alloc, &map)?;
    put_text(", by plan", out)?;
    put_rows(event.rows_by(alloc, &plan), out)
}

/// `rows_data TYPE BODY [MAP]`: a rows event of this type: the event's type and contents, and what is written for it if it
/// differs. With the body of a table map: how many columns the images of each row have, by it and by its plan.
pub(crate) fn put_rows_data(
    alloc: Global,
    arguments: &[&str],
    out: &mut Vec<u8>,
) -> Result<(), Fault> {
    let (name, body, map) = match arguments {
        [name, body] => (*name, *body, ""),
        [name, body, map] => (*name, *body, *map),
        _ => return Err(Fault::NoCase),
    };
    let (event_type, body) = (event_type_of(name)?, bytes_of(alloc, body)?);
    let in_force = description_with(b"");
    let ctx = BinlogCtx::new(body.len(), &in_force, 0);
    let event = RowsEventData::read(alloc, event_type, ctx, &body)?;
    put_debug(&event.event_type(), out)?;
    put_event(event.inner(), out)?;
    put_unless_same(&event, out)?;
    put_value_written(alloc, &event, event.len(), &body, out)?;
    let (other, has_images) = by_struct(alloc, event_type, ctx, &body, &event)?;
    put_unless(
        other == event && has_images,
        "it isn't the same as a struct",
        out,
    )?;
    if !map.is_empty() {
        put_mapped(alloc, &event, &bytes_of(alloc, map)?, out)?;
    }
    let owned = other.into_owned(alloc)?;
    put_unless(owned == event, "it isn't the same when owned", out)?;
    put_value_written(alloc, &owned, owned.len(), &written(alloc, &event)?, out)
}
