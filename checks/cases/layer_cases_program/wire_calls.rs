//! The calls of the wire layer.

use crate::words::Fault;
use crate::{
    flag_sets, wire_buffers, wire_constants, wire_fields, wire_integers, wire_packets,
    wire_sequences, wire_texts,
};
use std::alloc::Global;

/// Appends the result of a call for packets, constants or flags.
fn put_of_protocol(
    alloc: Global,
    call: &str,
    arguments: &[&str],
    out: &mut Vec<u8>,
) -> Result<(), Fault> {
    match call {
        "framing" => wire_packets::put_framings(alloc, arguments, out),
        "packets" => wire_packets::put_of_packets(alloc, arguments, out),
        "lent" => wire_packets::put_lent(alloc, arguments, out),
        "chunks" => wire_packets::put_chunks(alloc, arguments, out),
        "version" => wire_packets::put_version(alloc, arguments, out),
        "constant" => wire_constants::put_named(arguments, out),
        "command" => wire_constants::put_command(alloc, arguments, out),
        "named" => wire_constants::put_named_number(arguments, out),
        "flags" => flag_sets::put_flags(arguments, out),
        _ => Err(Fault::NoCase),
    }
}

/// Appends the result of a call for the wire layer.
pub(crate) fn put_of_wire(
    alloc: Global,
    call: &str,
    arguments: &[&str],
    out: &mut Vec<u8>,
) -> Result<(), Fault> {
    match call {
        "int" => wire_integers::put_int(alloc, arguments, out),
        "write_int" => wire_integers::put_written_int(alloc, arguments, out),
        "varlen_uint" => wire_integers::put_varlen_uint(alloc, arguments, out),
        "text" | "write_text" => wire_texts::put_of_text(alloc, call, arguments, out),
        "field" => wire_fields::put_field(alloc, arguments, out),
        "size" => wire_fields::put_named_size(arguments, out),
        "sequence" | "texts" | "grown" | "raw_sequence" => {
            wire_sequences::put_of_sequence(alloc, call, arguments, out)
        }
        "write_sequence" => wire_sequences::put_written_sequence(alloc, arguments, out),
        "buffer" => wire_buffers::put_steps(alloc, arguments, out),
        "truncate_on_error" => wire_buffers::put_truncated(alloc, arguments, out),
        _ => put_of_protocol(alloc, call, arguments, out),
    }
}
