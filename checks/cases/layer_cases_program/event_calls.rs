//! The calls of the events layer.

use crate::words::Fault;
use crate::{
    event_bodies, event_data, event_descriptions, event_files, event_frames, event_gtids,
    event_headers, event_logs, event_queries, event_readers, event_rows,
};
use std::alloc::Global;

/// Appends the result of a call for bodies.
fn put_of_bodies(
    alloc: Global,
    call: &str,
    arguments: &[&str],
    out: &mut Vec<u8>,
) -> Result<(), Fault> {
    match call {
        "body" => event_bodies::put_body_of(alloc, arguments, out),
        "commit_time" => event_gtids::put_commit_time(alloc, arguments, out),
        "event_data" => event_data::put_event_data(alloc, arguments, out),
        "event_error" => event_bodies::put_event_error(arguments, out),
        "long_schema" => event_queries::put_long_schema(alloc, arguments, out),
        "rows_data" => event_rows::put_rows_data(alloc, arguments, out),
        "status_vars" => event_queries::put_status_vars(alloc, arguments, out),
        _ => Err(Fault::NoCase),
    }
}

/// Appends the result of a call for events.
pub(crate) fn put_of_events(
    alloc: Global,
    call: &str,
    arguments: &[&str],
    out: &mut Vec<u8>,
) -> Result<(), Fault> {
    match call {
        "description" => event_descriptions::put_description(alloc, arguments, out),
        "event" => event_files::put_event(alloc, arguments, out),
        "failing_frames" => event_frames::put_failing_frames(alloc, arguments, out),
        "file" => event_files::put_file(alloc, arguments, out),
        "file_after" => event_files::put_file_after(alloc, arguments, out),
        "footer" => event_descriptions::put_footer_of(alloc, arguments, out),
        "frames" => event_frames::put_frames_of(alloc, arguments, out),
        "gather" => event_frames::put_gathered(alloc, arguments, out),
        "gather_in" => event_frames::put_gathered_in(alloc, arguments, out),
        "header" => event_headers::put_header(alloc, arguments, out),
        "log" => event_logs::put_log(alloc, arguments, out),
        "magic" => event_headers::put_magic(alloc, arguments, out),
        "parts" => event_headers::put_parts(alloc, arguments, out),
        "post_header_lengths" => event_descriptions::put_post_header_lengths(alloc, arguments, out),
        "reader" => event_readers::put_reader(alloc, arguments, out),
        "write_magic" => event_headers::put_written_magic(alloc, arguments, out),
        "written_description" => event_descriptions::put_written_description(alloc, arguments, out),
        _ => put_of_bodies(alloc, call, arguments, out),
    }
}
