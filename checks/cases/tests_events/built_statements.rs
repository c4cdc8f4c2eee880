//! Statements and GTID events that constructors and setters make.

use crate::written::is_read;
use events_bodies::{ExecuteLoadQueryEvent, GtidEvent, QueryEvent};
use rows_constants_extra::{GtidFlags, LoadDuplicateHandling};
use std::alloc::Global;
use std::borrow::CowSlice;

/// Options and character sets.
const VARS: &[u8] = b"\0\0\0\0\0\x04\x21\0\x21\0\x08\0";

/// `drop table t` in the schema `test`, run by thread 9 in 1 second with the error 1051, with these variables.
const QUERY: &[u8] =
    b"\x09\0\0\0\x01\0\0\0\x04\x1b\x04\x0c\0\0\0\0\0\0\x04\x21\0\x21\0\x08\0test\0drop table t";

/// A statement for file 7, whose name is in the statement from offset 10 to offset 14, and whose rows replace others.
const LOAD: &[u8] =
    b"\x09\0\0\0\x01\0\0\0\x04\x1b\x04\x0c\0\x07\0\0\0\x0a\0\0\0\x0e\0\0\0\x02\0\0\0\0\0\x04\x21\0\x21\0\x08\0test\0LOAD DATA 'a' REPLACE";

/// The GTID 5 of source 01020304-0506-0708-090a-0b0c0d0e0f10, with the flag and every optional field.
const GTID: &[u8] = &[
    1, 1, 2, 3, 4, 5, 6, 7, 8, 9, 10, 11, 12, 13, 14, 15, 16, 5, 0, 0, 0, 0, 0, 0, 0, 2, 6, 0, 0,
    0, 0, 0, 0, 0, 7, 0, 0, 0, 0, 0, 0, 0, 3, 0, 0, 0, 0, 0, 128, 2, 0, 0, 0, 0, 0, 0, 252, 44, 1,
    164, 56, 1, 128, 151, 56, 1, 0, 9, 0, 0, 0, 0, 0, 0, 0,
];

/// The uuid of that source.
const SID: [u8; 16] = [1, 2, 3, 4, 5, 6, 7, 8, 9, 10, 11, 12, 13, 14, 15, 16];

/// A statement, with all other fields empty or 0.
fn statement<'a>() -> QueryEvent<'a> {
    QueryEvent::new(
        CowSlice::Borrowed(b""),
        CowSlice::Borrowed(b""),
        CowSlice::Borrowed(b"a"),
    )
}

fn query_built(alloc: Global) -> bool {
    is_read(
        alloc,
        statement()
            .with_thread_id(9)
            .with_execution_time(1)
            .with_error_code(1051)
            .with_status_vars(CowSlice::Borrowed(VARS))
            .with_schema(CowSlice::Borrowed(b"test"))
            .with_query(CowSlice::Borrowed(b"drop table t")),
        QUERY,
    )
}

/// An event for file 1, with all other fields empty or 0.
fn empty_load<'a>() -> ExecuteLoadQueryEvent<'a> {
    ExecuteLoadQueryEvent::new(
        1,
        LoadDuplicateHandling::LOAD_DUP_ERROR,
        CowSlice::Borrowed(b""),
        CowSlice::Borrowed(b""),
        CowSlice::Borrowed(b""),
    )
}

/// The same with the numbers of `LOAD`.
fn numbered_load<'a>() -> ExecuteLoadQueryEvent<'a> {
    empty_load()
        .with_thread_id(9)
        .with_execution_time(1)
        .with_error_code(1051)
        .with_file_id(7)
        .with_start_pos(10)
        .with_end_pos(14)
        .with_dup_handling(LoadDuplicateHandling::LOAD_DUP_REPLACE)
}

fn load_built(alloc: Global) -> bool {
    is_read(
        alloc,
        numbered_load()
            .with_status_vars(CowSlice::Borrowed(VARS))
            .with_schema(CowSlice::Borrowed(b"test"))
            .with_query(CowSlice::Borrowed(b"LOAD DATA 'a' REPLACE")),
        LOAD,
    )
}

fn gtid_built(alloc: Global) -> bool {
    is_read(
        alloc,
        GtidEvent::new(SID, 5)
            .with_flags(GtidFlags::MAY_HAVE_SBR)
            .with_commit_group_ticket(9)
            .with_original_server_version(80023)
            .with_immediate_server_version(80036)
            .with_tx_length(300)
            .with_original_commit_timestamp(2)
            .with_immediate_commit_timestamp(3)
            .with_sequence_number(7)
            .with_last_committed(6),
        GTID,
    )
}

#[test]
fn built_statements(rt: HostRuntime) {
    let alloc = rt.alloc();
    assert!(rt; query_built(alloc));
    assert!(rt; load_built(alloc));
    assert!(rt; gtid_built(alloc));
}
