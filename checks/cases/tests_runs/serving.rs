//! Answers to requests for a binary log, with readers and writers that fail.

use crate::answers::{Pieces, answer_of};
use crate::samples::{BEGIN, Full, LIMIT, MAP, NAME, ROWS, XID, one_insert};
use crc32::crc32;
use feed_checks::Verdict;
use feed_replication::{RequestError, Served, request, serve};
use std::alloc::{AllocError, Global};
use std::test::*;
use wire_buf::Watched;

/// The packets of the small log's events, 158 bytes, without a closing packet or with it.
fn packets(alloc: Global, is_whole: bool) -> Result<Vec<u8>, AllocError> {
    answer_of(alloc, &[&BEGIN, &MAP, &ROWS, &XID], is_whole)
}

/// What is written of a log whose reader gives all of it or fails after it, into a writer with this room, and the result of the
/// request.
fn served_by(
    alloc: Global,
    log: &[u8],
    fails: bool,
    room: usize,
) -> Result<(Vec<u8>, Served), RequestError> {
    let asked = request(alloc, 4, 1, NAME)?;
    let mut reader = Watched::new(Pieces {
        bytes: log,
        at_once: 7,
        fails,
    });
    let mut writer = Watched::new(Full {
        taken: Vec::new(alloc),
        room,
    });
    let served = serve(alloc, &asked, NAME, LIMIT, &mut reader, &crc32, &mut writer);
    Ok((writer.into_inner().taken, served))
}

/// Whether this prefix of the packets is written then, and this is the fault.
fn writes(
    alloc: Global,
    log: &[u8],
    fails: bool,
    room: usize,
    packets: &[u8],
    fault: Verdict,
) -> bool {
    match served_by(alloc, log, fails, room) {
        Ok((written, found)) => found == Served::Fault(fault) && written.as_slice() == packets,
        Err(_) => false,
    }
}

fn serve_with_a_failing_writer(alloc: Global) -> bool {
    let Ok(log) = one_insert(alloc) else {
        return false;
    };
    let Ok(answer) = packets(alloc, true) else {
        return false;
    };
    for room in 0..167 {
        let (sent, _) = answer.split_at(room.min(answer.len()));
        if !writes(alloc, &log, false, room, sent, Verdict::Write) {
            return false;
        }
    }
    true
}

/// The length of the packets of those events that are complete in a prefix of the small log.
fn whole_packets(len: usize) -> usize {
    match len {
        0..42 => 0,
        42..79 => 43,
        79..115 => 85,
        115..142 => 126,
        _ => 158,
    }
}

fn serve_with_a_failing_reader(alloc: Global) -> bool {
    let Ok(log) = one_insert(alloc) else {
        return false;
    };
    let Ok(packets) = packets(alloc, false) else {
        return false;
    };
    for len in 0..143 {
        let (prefix, _) = log.split_at(len.min(log.len()));
        let (sent, _) = packets.split_at(whole_packets(len).min(packets.len()));
        if !writes(alloc, prefix, true, LIMIT, sent, Verdict::Read) {
            return false;
        }
    }
    true
}

/// Whether the result names the one that fails first: the reader, which fails after a prefix of the log, or the writer, which
/// fails after so many bytes.
fn names_the_first(alloc: Global, prefix: &[u8], packets: &[u8], room: usize) -> bool {
    let len = whole_packets(prefix.len());
    let (sent, _) = packets.split_at(len.min(room).min(packets.len()));
    let fault = if room < len {
        Verdict::Write
    } else {
        Verdict::Read
    };
    writes(alloc, prefix, true, room, sent, fault)
}

/// Whether it does with a writer that fails after any number of bytes, if the prefix is the longest with its packets; of another
/// prefix with one that fails before the end of its packets, at it, or after it.
fn names_each(alloc: Global, prefix: &[u8], packets: &[u8]) -> bool {
    let len = whole_packets(prefix.len());
    if len < whole_packets(prefix.len() + 1) || prefix.len() == 142 {
        return (0..160).all(|room| names_the_first(alloc, prefix, packets, room));
    }
    [0, len / 2, len.saturating_sub(1), len, len + 1]
        .iter()
        .all(|room| names_the_first(alloc, prefix, packets, *room))
}

#[test]
fn serve_with_failing_devices(rt: HostRuntime) -> Result<(), Fail> {
    let alloc = rt.alloc();
    let log = one_insert(alloc)?;
    let packets = packets(alloc, false)?;
    for len in 0..143 {
        let (prefix, _) = log.split_at(len.min(log.len()));
        assert!(rt; names_each(alloc, prefix, &packets));
    }
    Ok(())
}

#[test]
fn serving(rt: HostRuntime) {
    let alloc = rt.alloc();
    assert!(rt; serve_with_a_failing_writer(alloc));
    assert!(rt; serve_with_a_failing_reader(alloc));
}
