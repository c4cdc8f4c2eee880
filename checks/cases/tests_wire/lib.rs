//! Tests of the wire layer that no line of a table can express: laws, failing devices, out of memory, payloads of several chunks.
//!
//! The examples of the documentation are here too. The cases are in `checks/cases/data/wire_cases.txt`.
#![tactic(auto)]

mod faults;
mod laws_hold;
mod memory;
mod packets;
mod streams;
