//! The text of the rows of an update: the first example of `docs/library/ROWS.md`.

use feed_text::put_cell_ref;
use rows_cells::RowPart;
use rows_errors::RowsError;
use rows_event_body::{ColumnPlan, EventColumns, RowsEvent, RowsEventCtx, RowsEventType};
use rows_table_map::TableMapEvent;
use std::alloc::Global;
use wire_buf::ParseBuf;

/// Returns the plan of the table that a table map describes.
fn plan_of(alloc: Global, table_map: &[u8]) -> Result<ColumnPlan, RowsError> {
    let table_map = ParseBuf(table_map).parse::<TableMapEvent<'_>>(alloc, 8)?;
    Ok(ColumnPlan::new(alloc, &table_map)?)
}

/// Appends the text of a part of a row.
fn put_part(alloc: Global, part: RowPart<'_>, text: &mut Vec<u8>) -> Result<(), RowsError> {
    match part {
        RowPart::Cell(index, cell) => put_cell_ref(alloc, index, cell, text),
        RowPart::NextImage => Ok(text.extend_from_slice(b" to")?),
        RowPart::EndOfRow => Ok(text.push(b'\n')?),
    }
}

/// Returns the text of the rows of an event, a line for each.
fn text_of(
    alloc: Global,
    event: &RowsEvent<'_>,
    columns: &EventColumns,
) -> Result<Vec<u8>, RowsError> {
    let mut rows = event.cursor(columns);
    let mut text = Vec::new(alloc);
    while let Some(part) = rows.next_part()? {
        put_part(alloc, part, &mut text)?;
    }
    Ok(text)
}

/// Returns the text of the rows of an event, by the plan of its table.
fn rows_of(alloc: Global, event: &RowsEvent<'_>, plan: &ColumnPlan) -> Result<Vec<u8>, RowsError> {
    let mut columns = EventColumns::new(alloc);
    columns.fill(event, plan)?;
    text_of(alloc, event, &columns)
}

/// Returns the text of the rows of an update, a line for each, with `to` before the after image.
pub fn updated_rows(alloc: Global, table_map: &[u8], update: &[u8]) -> Result<Vec<u8>, RowsError> {
    let plan = plan_of(alloc, table_map)?;
    let ctx = RowsEventCtx {
        event_type: RowsEventType::UpdateRows,
        post_header_len: 10,
        write_post_header_len: 10,
    };
    let update = ParseBuf(update).parse::<RowsEvent<'_>>(alloc, ctx)?;
    rows_of(alloc, &update, &plan)
}
