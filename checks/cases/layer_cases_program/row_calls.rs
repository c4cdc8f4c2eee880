//! More calls of the rows layer: values, documents, images, owned rows and constants.

use crate::words::Fault;
use crate::{
    cell_texts, event_values, json_changes, json_values, owned_rows, plain_values, row_constants,
    row_images, time_values,
};
use std::alloc::Global;

/// Appends the result of a call for values and constants.
fn put_of_values(
    alloc: Global,
    call: &str,
    arguments: &[&str],
    out: &mut Vec<u8>,
) -> Result<(), Fault> {
    match call {
        "value_text" => plain_values::put_value_text(alloc, arguments, out),
        "column" => plain_values::put_made_column(alloc, arguments, out),
        "plain_row" => plain_values::put_plain_row(alloc, arguments, out),
        "bits" | "equal_bits" => plain_values::put_of_bits(alloc, arguments, out),
        "mysql_time" => time_values::put_mysql_time(alloc, arguments, out),
        "packed_time" | "timestamp_type" | "fraction_size" | "decimal_bin_size" => {
            time_values::put_packed(call, arguments, out)
        }
        "nines" => time_values::put_nines(alloc, arguments, out),
        "decimal_formats" => time_values::put_formats(alloc, arguments, out),
        "converted" => row_constants::put_number_of(arguments, out),
        _ => Err(Fault::NoCase),
    }
}

/// Appends the result of a call for documents, images, owned rows and events.
pub(crate) fn put_of_rows(
    alloc: Global,
    call: &str,
    arguments: &[&str],
    out: &mut Vec<u8>,
) -> Result<(), Fault> {
    match call {
        "json_value" => json_values::put_json_value(alloc, arguments, out),
        "json_container" => json_values::put_json_container(alloc, arguments, out),
        "nested_arrays" => json_values::put_nested(alloc, arguments, out),
        "json_diff" => json_changes::put_json_diff(alloc, arguments, out),
        "json_diffs" => json_changes::put_json_diffs(alloc, arguments, out),
        "owned_row" => owned_rows::put_owned_row(alloc, arguments, out),
        "content" => cell_texts::put_content(alloc, arguments, out),
        "cell_text" => cell_texts::put_cell_text(alloc, arguments, out),
        "image_text" => cell_texts::put_image_text(alloc, arguments, out),
        "text_buffer" => cell_texts::put_buffer(alloc, arguments, out),
        "image" => row_images::put_image(alloc, arguments, out),
        "row_field" => row_images::put_row_field(alloc, arguments, out),
        "wide_table" => row_images::put_wide_table(alloc, arguments, out),
        "equal_events" => event_values::put_equal_events(alloc, arguments, out),
        "equal_fields" => event_values::put_equal_fields(alloc, arguments, out),
        "rows_event_type" => event_values::put_event_type(arguments, out),
        "event_len" => event_values::put_event_len(alloc, arguments, out),
        "table_id" => event_values::put_table_id(alloc, arguments, out),
        _ => put_of_values(alloc, call, arguments, out),
    }
}
