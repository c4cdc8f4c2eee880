//! Runs of a follower of changes through connections that drop, and over a log that grows.

ghost use Rattle.std.specs.Prelude.{⊤};

use crate::rehearsing::{ALL, step};
use crc32::crc32;
use binlog_feed::{Applier, rehearse_changes};
use feed_change_log::CommittedTransaction;
use feed_checks::Verdict;
use feed_replication::{PayloadFormat, Step};
use std::alloc::Global;
use std::test::*;
use crate::samples::two_inserts;

/// The positions after the first transactions that it applied, and their number.
#[derive(Drop)]
struct Positions {
    found: [u32; 2],
    count: usize,
}

impl Applier for Positions {
    ghost has_applied = { λ p l. ⊤ };

    fn apply(&mut self, transaction: CommittedTransaction<'_>) {
        if self.count < 2 {
            self.found[self.count] = transaction.log_pos();
        }
        self.count = self.count.saturating_add(1);
    }
}

/// Whether exactly the first few of the two transactions are applied, and this verdict is returned; plain and semi-synchronous.
fn applies(alloc: Global, log: &[u8], steps: &[Step], count: usize, verdict: Verdict) -> bool {
    for format in [PayloadFormat::Plain, PayloadFormat::SemiSync] {
        let mut positions = Positions {
            found: [142, 280],
            count: 0,
        };
        let found = rehearse_changes(alloc, format, log, steps, &crc32, &mut positions);
        if found != verdict || positions.count != count || positions.found != [142, 280] {
            return false;
        }
    }
    true
}

#[test]
fn changes_of_a_growing_file(rt: HostRuntime) -> Result<(), Fail> {
    let alloc = rt.alloc();
    let log = two_inserts(alloc)?;
    let steps = [step(142, ALL), step(100, ALL), step(280, ALL)];
    assert!(rt; applies(alloc, &log, &steps, 2, Verdict::End));
    assert!(rt; applies(alloc, &log, &steps[..2], 1, Verdict::Closed));
    assert!(rt; applies(alloc, &log, &[], 0, Verdict::Closed));
    Ok(())
}

// The connection drops after so many bytes; then an answer is complete.
#[test]
fn changes_after_a_break(rt: HostRuntime) -> Result<(), Fail> {
    let alloc = rt.alloc();
    let log = two_inserts(alloc)?;
    for count in [
        0, 3, 5, 100, 157, 158, 159, 160, 167, 168, 200, 240, 310, 318,
    ] {
        assert!(rt;
            applies(
                alloc,
                &log,
                &[step(280, count), step(280, ALL)],
                2,
                Verdict::End
            )
        );
    }
    Ok(())
}
