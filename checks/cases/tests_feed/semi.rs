//! What is written of a semi-synchronous answer, and what is acknowledged then.

use crc32::crc32;
use feed_checks::Verdict;
use feed_replication::{Follower, RequestError, request, serve_semi};
use std::alloc::Global;
use crate::samples::{FIRST_ACK, Full, LIMIT, TEXT, are_joined, one_insert};
use wire_buf::Watched;

/// The name of the binary log.
const NAME: &[u8] = b"m";

/// The answer of `serve_semi` for a log.
fn served(alloc: Global, log: &[u8]) -> Result<Vec<u8>, RequestError> {
    let question = request(alloc, 4, 1, NAME)?;
    let mut reader = Watched::new(log);
    let mut writer = Watched::new(Vec::new(alloc));
    let _served = serve_semi(
        alloc,
        &question,
        NAME,
        LIMIT,
        &mut reader,
        &crc32,
        &mut writer,
    );
    Ok(writer.into_inner())
}

/// Whether a follower whose writer has this room acknowledges only the first event, and writes a prefix of the text.
fn acknowledges_what_is_written(alloc: Global, answer: &[u8], room: usize) -> bool {
    let Ok((mut follower, _request)) = Follower::start_semi(alloc, 4, 1, NAME, LIMIT, crc32) else {
        return false;
    };
    let taken = Vec::new(alloc);
    let mut writer = Watched::new(Full { taken, room });
    follower.feed(answer, &mut writer) == Some(Verdict::Write)
        && are_joined(&follower.acks(), &[&FIRST_ACK])
        && TEXT.as_bytes().starts_with(&writer.into_inner().taken)
}

// What an event shows is written before its acknowledgement is due.
fn semi_follow_with_a_failing_writer(alloc: Global) -> bool {
    let Ok(log) = one_insert(alloc) else {
        return false;
    };
    let Ok(answer) = served(alloc, &log) else {
        return false;
    };
    for room in 0..TEXT.len() {
        if !acknowledges_what_is_written(alloc, &answer, room) {
            return false;
        }
    }
    true
}

#[test]
fn semi(rt: HostRuntime) {
    let alloc = rt.alloc();
    assert!(rt; semi_follow_with_a_failing_writer(alloc));
}
