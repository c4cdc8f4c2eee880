//! The laws, each called once; they do nothing.

use mysql_wire::laws::{
    framings_are_read_back, framings_are_uniquely_read, packets_are_a_prefix, packets_are_longest,
    packets_end, streams_have_a_split, versions_are_their_numbers, worked_framings,
    worked_versions,
};
use wire_fields_extra::laws::{encodings_are_shortest, worked_numbers, worked_widths};

#[test]
fn laws_hold() {
    framings_are_uniquely_read();
    packets_are_a_prefix();
    packets_are_longest();
    packets_end();
    streams_have_a_split();
    framings_are_read_back();
    versions_are_their_numbers();
    worked_framings();
    worked_versions();
    worked_numbers();
    worked_widths();
    encodings_are_shortest();
}
