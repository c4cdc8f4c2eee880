//! A follower that lends each transaction, over answers that are interrupted.

use crc32::crc32;
use binlog_feed::ChangeFollower;
use feed_checks::Verdict;
use feed_replication::{RequestError, request};
use std::alloc::Global;
use std::test::*;
use crate::samples::{LIMIT, NAME, answered, two_inserts};

/// Takes what a follower has received. Whether its transactions end at the next of these positions; returns how many there were,
/// and the verdict, if the stream is over.
fn taken<F: Fn(&[u8]) -> u32>(
    follower: &mut ChangeFollower<F>,
    positions: &[u32],
) -> Option<(usize, Option<Verdict>)>
    requires callable { (f : _) → F.IsAlwaysCallable f }
{
    let mut count = 0usize;
    for position in positions {
        match follower.advance() {
            Ok(true) => {}
            Ok(false) => return Some((count, None)),
            Err(verdict) => return Some((count, Some(verdict))),
        }
        if follower.transaction().log_pos() != *position {
            return None;
        }
        count = count.saturating_add(1);
    }
    match follower.advance() {
        Ok(true) => None,
        Ok(false) => Some((count, None)),
        Err(verdict) => Some((count, Some(verdict))),
    }
}

/// Whether both inserts are lent, each once, if the connection drops after these bytes and the answer to the next request is
/// complete.
fn goes_on(alloc: Global, log: &[u8], broken: &[u8]) -> Result<bool, RequestError> {
    let (mut follower, _request) = ChangeFollower::start(alloc, 4, 1, NAME, LIMIT, crc32)?;
    if follower.receive(broken).is_err() {
        return Ok(false);
    }
    let Some((count, _)) = taken(&mut follower, &[142, 280]) else {
        return Ok(false);
    };
    if broken.len() % 2 == 1 {
        let _verdict = follower.finish();
    }
    let Ok(question) = follower.again() else {
        return Ok(false);
    };
    if follower.receive(&answered(alloc, &question, log)).is_err() {
        return Ok(false);
    }
    let left: [u32; 2] = [142, 280];
    match taken(&mut follower, &left[count.min(2)..]) {
        Some((more, verdict)) => {
            Ok(count.saturating_add(more) == 2 && verdict == Some(Verdict::End))
        }
        None => Ok(false),
    }
}

#[test]
fn change_following(rt: HostRuntime) -> Result<(), Fail> {
    let alloc = rt.alloc();
    let log = two_inserts(alloc)?;
    let answer = answered(alloc, &request(alloc, 4, 1, NAME)?, &log);
    for len in 0..answer.len() + 1 {
        let (broken, _) = answer.split_at(len);
        assert!(rt; goes_on(alloc, &log, broken)?);
    }
    Ok(())
}
