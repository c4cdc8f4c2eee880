//! Runs of a follower over a log that grows, and with a writer that fails.

use crc32::crc32;
use feed_checks::Verdict;
use feed_replication::{Step, rehearse, rehearse_growing};
use std::alloc::Global;
use std::test::*;
use crate::samples::{Full, TEXT, one_insert, two_inserts};
use wire_buf::Watched;

/// More bytes than any answer of these tests has.
pub(crate) const ALL: usize = 1_000_000;

/// The text of the second transaction.
const SECOND: &str = "begin -\ninsert 'd' 't' 0=5\ncommit 280\n";

/// What is printed of a log if these numbers of bytes of the answers arrive, and the verdict.
fn printed(alloc: Global, log: &[u8], counts: &[usize]) -> (Vec<u8>, Verdict) {
    let mut writer = Watched::new(Vec::new(alloc));
    let verdict = rehearse(alloc, log, counts, &crc32, &mut writer);
    (writer.into_inner(), verdict)
}

/// Whether that is the text of the first few of the two transactions, and this verdict.
fn prints(alloc: Global, log: &[u8], counts: &[usize], texts: usize, verdict: Verdict) -> bool {
    let (text, found) = printed(alloc, log, counts);
    found == verdict && is_text_of(&text, texts)
}

/// Whether a text is that of the first few of the two transactions.
fn is_text_of(text: &[u8], texts: usize) -> bool {
    let (first, second) = text.split_at(TEXT.len().min(text.len()));
    match texts {
        0 => text.is_empty(),
        1 => text == TEXT.as_bytes(),
        _ => first == TEXT.as_bytes() && second == SECOND.as_bytes(),
    }
}

/// The same for a log that grows.
fn prints_growing(
    alloc: Global,
    log: &[u8],
    steps: &[Step],
    texts: usize,
    verdict: Verdict,
) -> bool {
    let mut writer = Watched::new(Vec::new(alloc));
    let found = rehearse_growing(alloc, log, steps, &crc32, &mut writer);
    found == verdict && is_text_of(&writer.into_inner(), texts)
}

/// A step in which the log has this size, and this number of bytes of the answer arrives.
pub(crate) fn step(size: usize, count: usize) -> Step {
    Step { size, count }
}

fn rehearse_growing_file(alloc: Global) -> bool {
    let Ok(log) = two_inserts(alloc) else {
        return false;
    };
    let steps = [step(142, ALL), step(100, ALL), step(280, ALL)];
    let (two, _) = steps.split_at(2);
    prints_growing(alloc, &log, two, 1, Verdict::Closed)
        && prints_growing(alloc, &log, &steps, 2, Verdict::End)
        && prints_growing(alloc, &log, &[step(3, 0)], 0, Verdict::Closed)
}

// The answer for a log of each size is complete, and the connection drops during the next answer, for all of the log.
#[test]
fn every_size_of_a_growing_file(rt: HostRuntime) -> Result<(), Fail> {
    let alloc = rt.alloc();
    let log = two_inserts(alloc)?;
    for size in 4..281 {
        let texts = match size {
            0..142 => 0,
            142..280 => 1,
            _ => 2,
        };
        let steps = [step(size, ALL), step(280, size), step(280, ALL)];
        let (first, _) = steps.split_at(1);
        assert!(rt;
            prints_growing(alloc, &log, first, texts, Verdict::End)
                && prints_growing(alloc, &log, &steps, 2, Verdict::End)
        );
    }
    Ok(())
}

/// Whether a writer with this room gets that much of this text, and then fails.
fn prints_until_full(alloc: Global, log: &[u8], text: &[u8], room: usize) -> bool {
    let mut writer = Watched::new(Full {
        taken: Vec::new(alloc),
        room,
    });
    let verdict = rehearse(alloc, log, &[200, ALL], &crc32, &mut writer);
    let (prefix, _) = text.split_at(room.min(text.len()));
    verdict == Verdict::Write && writer.failed() && writer.into_inner().taken.as_slice() == prefix
}

fn rehearse_with_a_failing_writer(alloc: Global) -> bool {
    let Ok(log) = two_inserts(alloc) else {
        return false;
    };
    let (whole, _) = printed(alloc, &log, &[200, ALL]);
    if !is_text_of(&whole, 2) {
        return false;
    }
    for room in 0..76 {
        if !prints_until_full(alloc, &log, &whole, room) {
            return false;
        }
    }
    true
}

// With enough memory each call returns something else than `Memory`.
fn rehearse_with_ample_memory(alloc: Global) -> bool {
    let Ok(log) = one_insert(alloc) else {
        return false;
    };
    let steps = [step(100, 120), step(142, 167)];
    prints(alloc, &log, &[100, 167], 1, Verdict::End)
        && prints_growing(alloc, &log, &steps, 1, Verdict::End)
}

#[test]
fn rehearsing(rt: HostRuntime) {
    let alloc = rt.alloc();
    assert!(rt; rehearse_with_ample_memory(alloc));
    assert!(rt; rehearse_growing_file(alloc));
    assert!(rt; rehearse_with_a_failing_writer(alloc));
}
