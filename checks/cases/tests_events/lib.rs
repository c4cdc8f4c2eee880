//! Tests of events that no line of a table can express: the example of the documentation, constructors and setters.
//!
//! Cases of bytes with their results are in `checks/cases/data/events_cases.txt`.
#![tactic(auto)]

mod built;
mod built_statements;
mod events_tutorial;
mod example;
mod headers;
mod written;
