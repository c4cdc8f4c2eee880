//! The complete transactions of a truncated text.

use feed_resume::{Keeper, kept};
use std::alloc::{AllocError, Global};

/// Two transactions, of 38 bytes each.
const TWO_INSERTS: &[u8] =
    b"begin -\ninsert 'd' 't' 0=5\ncommit 142\nbegin -\ninsert 'd' 't' 0=6\ncommit 280\n";

fn kept_of_each_front() -> bool {
    if TWO_INSERTS.len() != 76 {
        return false;
    }
    for len in 0..=TWO_INSERTS.len() {
        let wanted = match len {
            0..=37 => (0, None),
            38..=75 => (38, Some(142)),
            _ => (76, Some(280)),
        };
        if kept(&TWO_INSERTS[..len]) != wanted {
            return false;
        }
    }
    true
}

fn commit_lines() -> bool {
    let rows: [(&[u8], usize, Option<u32>); 14] = [
        (b"commit 0\n", 9, Some(0)),
        (b"commit 7\n", 9, Some(7)),
        (b"commit 4294967295\n", 18, Some(u32::MAX)),
        (b"commit 4294967296\n", 0, None),
        (b"commit 99999999999999999999\n", 0, None),
        (b"commit 007\n", 0, None),
        (b"commit 00\n", 0, None),
        (b"commit +7\n", 0, None),
        (b"commit -7\n", 0, None),
        (b"commit 7 \n", 0, None),
        (b"commit \n", 0, None),
        (b"commit  7\n", 0, None),
        (b" commit 7\n", 0, None),
        (b"commit 7\xff\n", 0, None),
    ];
    for (text, len, position) in rows {
        if kept(text) != (len, position) {
            return false;
        }
    }
    true
}

fn lines_after_a_commit_line() -> bool {
    kept(b"\n") == (0, None)
        && kept(b"commit 7\n\n") == (9, Some(7))
        && kept(b"\n\ncommit 7\n") == (11, Some(7))
        && kept(b"commit 7\ncommit 8") == (9, Some(7))
        && kept(b"commit 7\ncommit 4294967296\nbegin -\n") == (9, Some(7))
}

/// The result for a text that arrives in pieces of at most this length.
fn kept_of_pieces(
    alloc: Global,
    text: &[u8],
    at_once: usize,
) -> Result<(u64, Option<u32>), AllocError> {
    let mut keeper = Keeper::new(alloc);
    for piece in text.chunks(at_once.max(1)) {
        keeper.take(piece)?;
    }
    Ok(keeper.kept())
}

fn kept_of_each_front_in_pieces(alloc: Global) -> bool {
    for at_once in [1, 5, 37, 38, 39, 76] {
        for len in 0..=TWO_INSERTS.len() {
            let text = &TWO_INSERTS[..len];
            let (whole, position) = kept(text);
            if kept_of_pieces(alloc, text, at_once) != Ok((whole as u64, position)) {
                return false;
            }
        }
    }
    true
}

#[test]
fn keeping(rt: HostRuntime) {
    let alloc = rt.alloc();
    assert!(rt; kept_of_each_front());
    assert!(rt; commit_lines());
    assert!(rt; lines_after_a_commit_line());
    assert!(rt; kept_of_each_front_in_pieces(alloc));
}
