//! Runs of a follower that acknowledges, over connections that drop and a log that grows.

use crate::rehearsing::{ALL, step};
use crc32::crc32;
use feed_checks::Verdict;
use feed_replication::{Step, rehearse_semi};
use linked_list_allocator::LocalHeap;
use std::alloc::{AllocError, Global};
use crate::samples::{
    FIRST_ACK, FIRST_END, LAST_ACK, LAST_END, TEXT, WHOLE, are_joined, one_insert,
};
use wire_buf::Watched;

/// The name of the binary log.
const NAME: &[u8] = b"m";

/// Whether a run over the small binary log in these steps prints this text and ends with this verdict, and appends the
/// acknowledgements of these packets.
fn runs(
    alloc: Global,
    steps: &[Step],
    text: &str,
    verdict: Verdict,
    acks: &[&[u8]],
) -> Result<bool, AllocError> {
    let log = one_insert(alloc)?;
    let mut writer = Watched::new(Vec::new(alloc));
    let mut kept = Vec::from_slice(alloc, b"ab")?;
    let found = rehearse_semi(alloc, &log, NAME, steps, &crc32, &mut writer, &mut kept);
    let is_after = match kept.as_slice().strip_prefix(b"ab".as_slice()) {
        Some(rest) => are_joined(rest, acks),
        None => false,
    };
    Ok(found == verdict && is_after && writer.into_inner().as_slice() == text.as_bytes())
}

fn semi_rehearse(alloc: Global) -> bool {
    let steps = [step(142, 100), step(142, ALL)];
    let acks: [&[u8]; 3] = [&FIRST_ACK, &FIRST_ACK, &LAST_ACK];
    runs(alloc, &steps, TEXT, Verdict::End, &acks) == Ok(true)
}

// An event that comes again after a dropped connection is acknowledged again.
fn semi_rehearse_every_break(alloc: Global) -> bool {
    for count in 0..WHOLE + 1 {
        let steps = [step(142, count), step(142, ALL)];
        let again: [&[u8]; 3] = [&FIRST_ACK, &FIRST_ACK, &LAST_ACK];
        let acks = if count < FIRST_END || count >= LAST_END {
            &again[1..]
        } else {
            &again[..]
        };
        if runs(alloc, &steps, TEXT, Verdict::End, acks) != Ok(true) {
            return false;
        }
    }
    true
}

fn semi_rehearse_a_growing_log(alloc: Global) -> bool {
    let steps = [step(3, ALL), step(100, ALL), step(142, LAST_END)];
    let acks: [&[u8]; 3] = [&FIRST_ACK, &FIRST_ACK, &LAST_ACK];
    runs(alloc, &[], "", Verdict::Closed, &[]) == Ok(true)
        && runs(alloc, &steps, TEXT, Verdict::Closed, &acks) == Ok(true)
}

/// Whether a run whose acknowledgements get no more memory than this keeps the first, has written the text, and ends with
/// `Memory`.
fn runs_out_of_memory(alloc: Global, log: &[u8], heap: &LocalHeap) -> bool {
    let mut kept = Vec::new(heap);
    let mut writer = Watched::new(Vec::new(alloc));
    let steps = [step(142, FIRST_END), step(142, ALL)];
    let verdict = rehearse_semi(alloc, log, NAME, &steps, &crc32, &mut writer, &mut kept);
    verdict == Verdict::Memory
        && are_joined(&kept, &[&FIRST_ACK])
        && writer.into_inner().as_slice() == TEXT.as_bytes()
}

// What the step shows is written, and the packets that are kept are complete.
fn semi_rehearse_with_refused_memory(alloc: Global) -> bool {
    let Ok(log) = one_insert(alloc) else {
        return false;
    };
    let Ok(heap) = LocalHeap::new(alloc, 16) else {
        return false;
    };
    runs_out_of_memory(alloc, &log, &heap)
}

#[test]
fn semi_rehearsing(rt: HostRuntime) {
    let alloc = rt.alloc();
    assert!(rt; semi_rehearse(alloc));
    assert!(rt; semi_rehearse_every_break(alloc));
    assert!(rt; semi_rehearse_a_growing_log(alloc));
    assert!(rt; semi_rehearse_with_refused_memory(alloc));
}
