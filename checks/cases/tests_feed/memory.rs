//! Each call with enough memory.

use crate::reporting::is_reported;
use crc32::crc32;
use feed_checks::Verdict;
use feed_replication::{Follower, Served, request, serve};
use std::alloc::Global;
use std::test::*;
use crate::answers::answer_of;
use crate::samples::{BEGIN, LIMIT, MAP, NAME, ROWS, TEXT, XID, one_insert};
use wire_buf::Watched;

/// Whether the result is `Ok` with these bytes.
fn is_given<E: Drop>(given: Result<Vec<u8>, E>, wanted: &[u8]) -> bool {
    match given {
        Ok(bytes) => bytes.as_slice() == wanted,
        Err(_) => false,
    }
}

/// Whether the log is served with this answer.
fn is_served(alloc: Global, asked: &[u8], log: &[u8], answer: &[u8]) -> bool {
    let mut reader = Watched::new(log);
    let mut writer = Watched::new(Vec::new(alloc));
    serve(alloc, asked, NAME, LIMIT, &mut reader, &crc32, &mut writer) == Served::Whole
        && writer.into_inner().as_slice() == answer
}

/// Whether a follower's first request is this one, it shows the transaction of its answer, and then asks for the rest.
fn follows(alloc: Global, asked: &[u8], answer: &[u8], rest: &[u8]) -> bool {
    let Ok((mut follower, question)) = Follower::start(alloc, 4, 1, NAME, LIMIT, crc32) else {
        return false;
    };
    let mut writer = Watched::new(Vec::new(alloc));
    question.as_slice() == asked
        && follower.feed(answer, &mut writer) == Some(Verdict::End)
        && writer.into_inner().as_slice() == TEXT.as_bytes()
        && is_given(follower.again(), rest)
}

/// The packet of a request for the log from this position on.
fn request_from(position: u8) -> [u8; 32] {
    [
        0x1c, 0x00, 0x00, 0x00, 0x12, position, 0x00, 0x00, 0x00, 0x01, 0x00, 0x01, 0x00, 0x00,
        0x00, 0x6d, 0x61, 0x73, 0x74, 0x65, 0x72, 0x2d, 0x62, 0x69, 0x6e, 0x2e, 0x30, 0x30, 0x30,
        0x30, 0x30, 0x32,
    ]
}

// Each call that may return `Memory` returns something else if there is enough memory.
#[test]
fn ample_memory(rt: HostRuntime) -> Result<(), Fail> {
    let alloc = rt.alloc();
    let log = one_insert(alloc)?;
    let answer = answer_of(alloc, &[&BEGIN, &MAP, &ROWS, &XID], true)?;
    let asked = request_from(4);
    assert!(rt;
        is_reported(alloc, &log, TEXT.as_bytes(), Verdict::End)
            && is_given(request(alloc, 4, 1, NAME), &asked)
            && is_served(alloc, &asked, &log, &answer)
            && follows(alloc, &asked, &answer, &request_from(142))
    );
    Ok(())
}
