//! Cases of the layers and of `feed_text`: bytes in, a text out. Standard input has one case for each line: the name of a call,
//! its arguments, ` = ` and its result, which is a text, the name of an error, or `nothing` for an empty text. Empty lines, and
//! lines that begin with `#`, aren't cases; a line of `#@ ` and a name begins a table. A case with another result is printed,
//! with its table, its line number there and that result; nothing else is printed.
//!
//! Bytes are hexadecimal digits, with plain text between quotes: `02'ab'` is three bytes, and `''` is none; a `_` between digits
//! only separates fields. `00*45` is the byte 0 45 times.

mod cell_texts;
mod cells;
mod conversions;
mod decimals;
mod entries;
mod event_bodies;
mod event_calls;
mod event_data;
mod event_descriptions;
mod event_devices;
mod event_fields;
mod event_files;
mod event_frames;
mod event_gtids;
mod event_headers;
mod event_logs;
mod event_memory;
mod event_queries;
mod event_readers;
mod event_rows;
mod event_values;
mod event_words;
mod feed_followers;
mod feed_unsummed;
mod feed_values;
mod flag_sets;
mod json_changes;
mod json_values;
mod numbers;
mod optional;
mod owned_rows;
mod plain_values;
mod row_calls;
mod row_constants;
mod row_events;
mod row_images;
mod rows;
mod table_maps;
mod tables;
mod time_values;
mod times;
mod wire_buffers;
mod wire_calls;
mod wire_constants;
mod wire_fields;
mod wire_integers;
mod wire_packets;
mod wire_sequences;
mod wire_texts;
mod wire_words;
mod words;

use crate::words::{Fault, put_error, put_number, put_text};
use std::alloc::Global;
use std::io::{self, ErrorKind, Write};

/// Begins the line before each table; its name follows.
const TABLE: &str = "#@ ";

/// Appends the result of a call for the layer that knows it.
fn put_of_layer(
    alloc: Global,
    call: &str,
    arguments: &[&str],
    out: &mut Vec<u8>,
) -> Result<(), Fault> {
    let of_wire = wire_calls::put_of_wire(alloc, call, arguments, out);
    if !matches!(of_wire, Err(Fault::NoCase)) {
        return of_wire;
    }
    let of_rows = row_calls::put_of_rows(alloc, call, arguments, out);
    if !matches!(of_rows, Err(Fault::NoCase)) {
        return of_rows;
    }
    event_calls::put_of_events(alloc, call, arguments, out)
}

/// Appends the result of a call for cells, decimals and times.
fn put_value_result(
    alloc: Global,
    call: &str,
    arguments: &[&str],
    out: &mut Vec<u8>,
) -> Result<(), Fault> {
    match call {
        "plain_cell" | "plain_unsigned_cell" | "plain_partial_cell" => cells::put_plain_cell(
            alloc, call, arguments, out,
        ),
        "quote" => cells::put_quoted(alloc, arguments, out),
        "from_str" | "parse_bytes" | "parse_str_bytes" => {
            decimals::put_parsed(alloc, call, arguments, out)
        }
        "from_bin" => decimals::put_from_bin(alloc, arguments, out),
        "read_bin" => decimals::put_read_bin(alloc, arguments, out),
        "from_packed" => decimals::put_from_packed(alloc, arguments, out),
        "write_bin" => decimals::put_written(alloc, arguments, out),
        "decimal_numbers" => decimals::put_numbers(alloc, arguments, out),
        "cmp" => decimals::put_order(alloc, arguments, out),
        "time2" => times::put_time(alloc, arguments, out),
        "datetime2" => times::put_datetime(alloc, arguments, out),
        "timestamp2" => times::put_timestamp(alloc, arguments, out),
        "opaque" => cells::put_opaque(alloc, arguments, out),
        _ => put_of_layer(alloc, call, arguments, out),
    }
}

/// Appends the result of a call.
fn put_result(
    alloc: Global,
    call: &str,
    arguments: &[&str],
    out: &mut Vec<u8>,
) -> Result<(), Fault> {
    match call {
        "columns" | "plan" | "definitions" | "rows" => {
            tables::put_of_table(alloc, call, arguments, out)
        }
        "rows_event" => row_events::put_rows_event(alloc, arguments, out),
        "table_map" => table_maps::put_table_map(alloc, arguments, out),
        "optional" => optional::put_optional(alloc, arguments, out),
        "taken" => optional::put_taken(alloc, arguments, out),
        "entry" => entries::put_entry(alloc, arguments, out),
        "number" => numbers::put_named(arguments, out),
        "convert" => conversions::put_converted(arguments, out),
        "numbers" => numbers::put_numbers(alloc, arguments, out),
        "changes" | "changes_failing" | "filtered" => {
            feed_values::put_of_log(alloc, call, arguments, out)
        }
        "follower" | "stream" | "each_byte" | "serve" => {
            feed_followers::put_followed(alloc, call, arguments, out)
        }
        "unsummed_report" | "unsummed_run" | "unsummed_serve" => {
            feed_unsummed::put_unsummed(alloc, call, arguments, out)
        }
        _ => put_value_result(alloc, call, arguments, out),
    }
}

/// The result of a case: a text, the name of its error, or `nothing`.
fn result_of(alloc: Global, case: &str) -> Result<Vec<u8>, Fault> {
    let words = case.split(' ').collect::<Vec<&str>>(alloc)?;
    let mut out = Vec::new(alloc);
    let put = match words.as_slice() {
        [call, arguments @ ..] => put_result(alloc, call, arguments, &mut out),
        [] => Err(Fault::NoCase),
    };
    if let Err(fault) = put {
        out.clear();
        put_error(fault, &mut out)?;
    }
    if out.is_empty() {
        put_text("nothing", &mut out)?;
    }
    Ok(out)
}

/// Appends the line of a table with this number, if it is a case with another result.
fn put_if_wrong(
    alloc: Global,
    table: &str,
    number: u64,
    line: &str,
    wrong: &mut Vec<u8>,
) -> Result<(), Fault> {
    if line.is_empty() || line.starts_with('#') {
        return Ok(());
    }
    let (case, wanted) = line.split_once(" = ").unwrap_or((line, ""));
    let result = result_of(alloc, case)?;
    if result.as_slice() != wanted.as_bytes() {
        put_text(table, wrong)?;
        put_text(" line ", wrong)?;
        put_number(number, wrong)?;
        put_text(": ", wrong)?;
        put_text(line, wrong)?;
        put_text(": it is ", wrong)?;
        wrong.extend_from_slice(&result)?;
        wrong.push(b'\n')?;
    }
    Ok(())
}

/// The wrong cases of tables, a line for each.
fn wrong_cases(alloc: Global, tables: &str) -> Result<Vec<u8>, Fault> {
    let mut wrong = Vec::new(alloc);
    let mut table = "";
    let mut number = 0u64;
    for line in tables.lines() {
        if let Some(name) = line.strip_prefix(TABLE) {
            table = name;
            number = 0;
        } else {
            number = number.saturating_add(1);
            put_if_wrong(alloc, table, number, line, &mut wrong)?;
        }
    }
    Ok(wrong)
}

fn main(rt: HostRuntime) -> io::Result<()> {
    let alloc = rt.alloc();
    let tables = io::read_to_string(alloc, rt.reader())?;
    match wrong_cases(alloc, &tables) {
        Ok(wrong) => io::writer(&rt).write_all(&wrong),
        Err(_) => Err(io::Error::from(ErrorKind::OutOfMemory)),
    }
}
