//! Tests of the rows layer that no line of a table can express: laws, out of memory, failing devices, conversions.
//!
//! The cases are in `checks/cases/data/rows_cases.txt`.
#![tactic(auto)]

mod constants;
mod devices;
mod faults;
mod image_cells;
mod laws;
mod optional_metadata;
