//! Reports of logs whose reader gives few bytes at once.

use crc32::crc32;
use feed_checks::Verdict;
use feed_transactions::report;
use std::alloc::Global;
use crate::answers::Pieces;
use wire_buf::Watched;

/// The report of a file from a reader that gives at most this number of bytes at once.
fn reported(alloc: Global, file: &[u8], at_once: usize) -> (Vec<u8>, Verdict) {
    let mut reader = Watched::new(Pieces {
        bytes: file,
        at_once,
        fails: false,
    });
    let mut writer = Watched::new(Vec::new(alloc));
    let verdict = report(alloc, &mut reader, &crc32, &mut writer);
    (writer.into_inner(), verdict)
}

/// Whether a file has this report, with any number of bytes at once.
pub fn is_reported(alloc: Global, file: &[u8], text: &[u8], verdict: Verdict) -> bool {
    for at_once in [1, 5, 19, 4096] {
        let (written, found) = reported(alloc, file, at_once);
        if found != verdict || written.as_slice() != text {
            return false;
        }
    }
    true
}
