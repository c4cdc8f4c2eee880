//! The text of a document, and running out of memory; documents, updates and other texts in a buffer.

ghost use Rattle.std.specs.Prelude.{◌≡◌, [], replicate};

use crate::texts::Outcome;
use feed_text::{FeedForm, TextBuffer, Writing, WritingInRoom, put_json};
use linked_list_allocator::LocalHeap;
use rows_errors::RowsError;
use rows_jsonb::{JsonDom, Value};
use std::alloc::{AllocError, Global};
use wire_buf::ParseBuf;

/// The tree of a document.
fn tree(alloc: Global, bytes: &[u8]) -> Result<JsonDom, RowsError> {
    ParseBuf(bytes).parse::<Value<'_>>(alloc, ())?.parse(alloc)
}

/// The result of writing a document's text with this much memory.
fn outcome_of(alloc: Global, document: &JsonDom, text: &[u8], size: usize) -> Outcome {
    let Ok(heap) = LocalHeap::new(alloc, size) else {
        return Outcome::Wrong;
    };
    let mut out = Vec::new(&heap);
    let put = put_json(document, &mut out);
    if put == Ok(()) && out.as_slice() == text {
        Outcome::Written
    } else if put == Err(RowsError::Memory) && out.is_empty() {
        Outcome::Refused
    } else {
        Outcome::Wrong
    }
}

/// Whether, for every size of memory, the document's text is written or memory runs out, and both occur.
fn is_written_or_failed(alloc: Global, document: &JsonDom, text: &[u8]) -> bool {
    let (mut written, mut failed) = (false, false);
    for size in 1..=256usize {
        match outcome_of(alloc, document, text, size) {
            Outcome::Written => written = true,
            Outcome::Refused => failed = true,
            _ => return false,
        }
    }
    written && failed
}

// Each size of memory runs out at a different allocation: the error is returned, and the bytes before are unchanged.
fn out_of_memory_for_a_document(alloc: Global) -> bool {
    let bytes =
        b"\x00\x02\x00\x1b\x00\x12\x00\x01\x00\x13\x00\x02\x00\x0c\x15\x00\x04\x01\x00zab\x05a'b'c";
    match tree(alloc, bytes) {
        Ok(document) => { is_written_or_failed(alloc, &document, br"{'ab':true,'z':'a\27b\27c'}") }
        Err(_) => false,
    }
}

/// Whether a document is appended in the feed's form, with this text; or nothing, with an error.
fn is_appended(alloc: Global, bytes: &[u8], text: Option<&[u8]>) -> bool {
    let mut out = TextBuffer::new(alloc);
    let put = out.put_document_in::<FeedForm>(alloc, bytes);
    match text {
        Some(text) => put == Ok(()) && out.as_slice() == text,
        None => put.is_err() && out.len() == 0,
    }
}

// A document that is written from its bytes, one by way of its tree (its keys are equal), and one that is truncated.
fn documents_in_a_buffer(alloc: Global) -> bool {
    is_appended(alloc, b"\x02\x01\x00\x07\x00\x05\x07\x00", Some(b"[7]"))
        && is_appended(
            alloc,
            b"\x00\x02\x00\x14\x00\x12\x00\x01\x00\x13\x00\x01\x00\x05\x07\x00\x05\x08\x00aa",
            Some(b"{'a':8}"),
        )
        && is_appended(alloc, b"\x02\x01\x00\x07\x00\x05\x07", None)
}

// A replacement of a part, and bytes that are no updates.
fn updates_in_a_buffer(alloc: Global) -> bool {
    let mut out = TextBuffer::new(alloc);
    out.put_updates_in::<FeedForm>(alloc, b"\x00\x03$.a\x03\x05\x07\x00") == Ok(())
        && out.put_updates_in::<FeedForm>(alloc, b"\x03").is_err()
        && out.as_slice() == b"diff[replace '$.a' 7]".as_slice()
}

/// Some letters.
struct Letters(usize);

impl Writing for Letters {
    ghost content = { λ letters. replicate letters.0 97 };

    ghost most = { λ letters. letters.0 };

    fn room(&self) -> Option<usize> {
        Some(self.0)
    }

    fn put(&self, text: &mut [u8], at: usize) -> usize {
        let end = at + self.0;
        text[at..end].fill(b'a');
        end
    }
}

fn writings_in_a_buffer(alloc: Global) -> Result<bool, AllocError> {
    let mut out = TextBuffer::new(alloc);
    out.put(b'b')?;
    out.put_writing(&Letters(3))?;
    Ok(out.as_slice() == b"baaa".as_slice())
}

/// Writes nothing, and returns whether there is room for so many bytes.
#[derive(Clone, Copy)]
struct Room(usize);

impl WritingInRoom for Room {
    type Left = bool;

    ghost Wrote = { λ w x left. x ≡ [] };

    fn put(self, text: &mut [u8], at: usize) -> (usize, bool) {
        (at, text.len() - at >= self.0)
    }
}

fn room_in_a_buffer(alloc: Global) -> Result<bool, AllocError> {
    let mut out = TextBuffer::new(alloc);
    out.put(b'b')?;
    let has_room = out.put_in_room(10_000, Room(10_000));
    Ok(has_room && out.as_slice() == b"b".as_slice())
}

#[test]
fn json_text(rt: HostRuntime) {
    let alloc = rt.alloc();
    assert!(rt; out_of_memory_for_a_document(alloc));
    assert!(rt; documents_in_a_buffer(alloc));
    assert!(rt; updates_in_a_buffer(alloc));
    assert!(rt; writings_in_a_buffer(alloc) == Ok(true));
    assert!(rt; room_in_a_buffer(alloc) == Ok(true));
}
