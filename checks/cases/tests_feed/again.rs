//! Connections that drop, and the requests that resume.

use crc32::crc32;
use feed_checks::Verdict;
use feed_replication::{Follower, RequestError, request};
use std::alloc::Global;
use std::test::*;
use crate::samples::{LIMIT, NAME, answered, two_inserts};
use wire_buf::Watched;

/// The report of the log of two transactions.
const BOTH: &str =
    "begin -\ninsert 'd' 't' 0=5\ncommit 142\nbegin -\ninsert 'd' 't' 0=5\ncommit 280\n";

/// Whether the whole log is printed, each transaction once, if the connection drops after these bytes and the answer to the next
/// request is complete.
fn goes_on(alloc: Global, log: &[u8], broken: &[u8]) -> Result<bool, RequestError> {
    let (mut follower, _request) = Follower::start(alloc, 4, 1, NAME, LIMIT, crc32)?;
    let mut writer = Watched::new(Vec::new(alloc));
    let _verdict = follower.feed(broken, &mut writer);
    if broken.len() % 2 == 1 {
        let _verdict = follower.finish();
    }
    let Ok(question) = follower.again() else {
        return Ok(false);
    };
    let verdict = follower.feed(&answered(alloc, &question, log), &mut writer);
    Ok(verdict == Some(Verdict::End) && writer.into_inner().as_slice() == BOTH.as_bytes())
}

// The rest of a packet or of a transaction is dropped, and so is the verdict of a follower that was finished.
#[test]
fn answers_that_break_off_anywhere(rt: HostRuntime) -> Result<(), Fail> {
    let alloc = rt.alloc();
    let log = two_inserts(alloc)?;
    let answer = answered(alloc, &request(alloc, 4, 1, NAME)?, &log);
    for len in 0..answer.len() + 1 {
        let (broken, _) = answer.split_at(len);
        assert!(rt; goes_on(alloc, &log, broken)?);
    }
    Ok(())
}
