//! Tests of the feed and its text that no line of a table can express: failing devices, interrupted answers, truncated texts,
//! checksums, enough memory, out of memory.
//!
//! They use the public interface. The tables of cases are those of `checks/programs/feed_cases` and `checks/cases/layer_cases`.
#![tactic(auto)]

mod again;
mod answers;
mod checksums;
mod failed_cells;
mod failing;
mod json_cells;
mod json_documents;
mod json_text;
mod keeping;
mod laws;
mod memory;
mod reporting;
mod rows_example;
mod rows_tutorial;
mod rows_without_memory;
mod samples;
mod semi;
mod tables_shown;
mod texts;
mod verdicts;
