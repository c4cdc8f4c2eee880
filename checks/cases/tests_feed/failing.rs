//! Readers and writers that fail, and the order in which they are called.

use crc32::crc32;
use feed_checks::Verdict;
use feed_replication::Follower;
use feed_resume::kept;
use feed_transactions::report;
use std::alloc::{AllocError, Global};
use std::cell::Cell;
use std::io::{self, ErrorKind, Read, Write};
use crate::answers::Pieces;
use crate::samples::{
    BEGIN, Full, LIMIT, MAP, NAME, ROWS, TEXT, XID, answered, file_of, one_insert,
};
use wire_buf::Watched;

/// A reader that gives one byte at a time, and records how many were requested from it in all.
#[derive(Drop)]
struct Asked<'a> {
    bytes: &'a [u8],
    given: usize,
    asked: &'a Cell<usize>,
}

impl Read for Asked<'_> {
    fn read(&mut self, buf: &mut [u8]) -> io::Result<usize> {
        let len = buf.len().min(1);
        self.asked.set(self.given.saturating_add(len));
        let taken = self.bytes.read(&mut buf[..len])?;
        self.given = self.given.saturating_add(taken);
        Ok(taken)
    }
}

/// A writer that records, for each byte, how many bytes were requested from the reader before it.
#[derive(Drop)]
struct Noted<'a> {
    asked: &'a Cell<usize>,
    notes: Vec<usize>,
}

impl Write for Noted<'_> {
    fn write(&mut self, buf: &[u8]) -> io::Result<usize> {
        for _ in buf {
            self.notes.push(self.asked.get())?;
        }
        Ok(buf.len())
    }

    fn flush(&mut self) -> io::Result<()> {
        Ok(())
    }
}

/// The small binary log with its transaction twice.
fn two_transactions(alloc: Global) -> Result<Vec<u8>, AllocError> {
    file_of(
        alloc,
        &[&BEGIN, &MAP, &ROWS, &XID, &BEGIN, &MAP, &ROWS, &XID],
    )
}

/// For each byte of the report, how many bytes were requested from the reader before it; `None` if the report isn't complete.
fn notes_of(alloc: Global, file: &[u8]) -> Option<Vec<usize>> {
    let asked = Cell::new(0usize);
    let mut reader = Watched::new(Asked {
        bytes: file,
        given: 0,
        asked: &asked,
    });
    let mut writer = Watched::new(Noted {
        asked: &asked,
        notes: Vec::new(alloc),
    });
    let verdict = report(alloc, &mut reader, &crc32, &mut writer);
    let notes = writer.into_inner().notes;
    if verdict == Verdict::End {
        Some(notes)
    } else {
        None
    }
}

fn transaction_is_written_before_more_is_asked_for(alloc: Global) -> bool {
    let Ok(file) = two_transactions(alloc) else {
        return false;
    };
    let notes = notes_of(alloc, &file).unwrap_or(Vec::new(alloc));
    if notes.len() != 2 * TEXT.len() {
        return false;
    }
    for (index, note) in notes.iter().enumerate() {
        if *note != if index < TEXT.len() { 142 } else { 280 } {
            return false;
        }
    }
    true
}

/// Whether the report of a log whose reader fails after these bytes is `Read`, after this number of transactions.
fn is_cut(alloc: Global, prefix: &[u8], transactions: usize) -> bool {
    let mut reader = Watched::new(Pieces {
        bytes: prefix,
        at_once: 7,
        fails: true,
    });
    let mut writer = Watched::new(Vec::new(alloc));
    let verdict = report(alloc, &mut reader, &crc32, &mut writer);
    let is_blamed = verdict == Verdict::Read && reader.failed() && !writer.failed();
    let text = writer.into_inner();
    let (first, second) = text.split_at(TEXT.len().min(text.len()));
    is_blamed
        && match transactions {
            0 => text.is_empty(),
            1 => first == TEXT.as_bytes() && second.is_empty(),
            _ => first == TEXT.as_bytes() && second == TEXT.as_bytes(),
        }
}

fn report_with_a_failing_reader(alloc: Global) -> bool {
    let Ok(file) = two_transactions(alloc) else {
        return false;
    };
    if file.len() != 280 {
        return false;
    }
    for len in 0..file.len() + 1 {
        let (prefix, _) = file.split_at(len);
        let transactions = match len {
            0..142 => 0,
            142..280 => 1,
            _ => 2,
        };
        if !is_cut(alloc, prefix, transactions) {
            return false;
        }
    }
    true
}

/// Whether the complete transactions of a prefix of the small log's text, followed by what a follower that resumes there shows of
/// the whole answer, are the text.
fn is_repaired(alloc: Global, log: &[u8], truncated: &[u8]) -> bool {
    let (len, position) = kept(truncated);
    let (whole, _) = truncated.split_at(len.min(truncated.len()));
    let position = position.unwrap_or(4);
    let Ok((mut follower, asked)) = Follower::start(alloc, position, 1, NAME, LIMIT, crc32) else {
        return false;
    };
    let mut writer = Watched::new(Vec::new(alloc));
    let verdict = follower.feed(&answered(alloc, &asked, log), &mut writer);
    let (written, back) = TEXT.as_bytes().split_at(len.min(TEXT.len()));
    verdict == Some(Verdict::End) && whole == written && writer.into_inner().as_slice() == back
}

/// The bytes of the report that a writer with this room takes; `None` unless only the writer failed and the verdict is `Write`,
/// or nothing failed, the room is that of the whole report and the verdict is `End`.
fn report_into(alloc: Global, file: &[u8], room: usize) -> Option<Vec<u8>> {
    let mut reader = Watched::new(file);
    let mut writer = Watched::new(Full {
        taken: Vec::new(alloc),
        room,
    });
    let verdict = report(alloc, &mut reader, &crc32, &mut writer);
    let is_whole = room == TEXT.len();
    let wanted = if is_whole {
        Verdict::End
    } else {
        Verdict::Write
    };
    let is_blamed = verdict == wanted && writer.failed() != is_whole && !reader.failed();
    let taken = writer.into_inner().taken;
    if is_blamed { Some(taken) } else { None }
}

fn report_with_a_failing_writer(alloc: Global) -> bool {
    let Ok(file) = one_insert(alloc) else {
        return false;
    };
    for room in 0..TEXT.len() + 1 {
        let (written, _) = TEXT.as_bytes().split_at(room);
        let Some(taken) = report_into(alloc, &file, room) else {
            return false;
        };
        if taken.as_slice() != written || !is_repaired(alloc, &file, &taken) {
            return false;
        }
    }
    true
}

#[test]
fn failing(rt: HostRuntime) {
    let alloc = rt.alloc();
    assert!(rt; transaction_is_written_before_more_is_asked_for(alloc));
    assert!(rt; report_with_a_failing_reader(alloc));
    assert!(rt; report_with_a_failing_writer(alloc));
}
