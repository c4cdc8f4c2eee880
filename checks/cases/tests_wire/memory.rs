//! Values written with little memory.

use linked_list_allocator::LocalHeap;
use std::alloc::Global;
use std::borrow::CowSlice;
use wire_buf::{MySerialize, WireFault};
use wire_fields::{BytesRepr, LeU16, LeU128, LenEnc, RawBytes, RawInt, U8Bytes};
use wire_fields_extra::{NullBytes, Seq};

/// Writes a value after `ab` with memory for so many bytes. Returns the result and the number of bytes then
/// in the buffer, or None if there is no memory even for `ab`.
fn written_in<T: MySerialize>(
    alloc: Global,
    value: &T,
    size: usize,
) -> Option<(Result<(), WireFault>, usize)> {
    let heap = LocalHeap::new(alloc, size).ok()?;
    let mut out = Vec::new(&heap);
    out.extend_from_slice(b"ab").ok()?;
    let answer = value.serialize(&mut out);
    Some((answer, out.len()))
}

/// Whether the value of `len` bytes is written with some of the memories of up to 256 bytes, returns an error
/// and appends nothing with others, and is never written in part.
fn is_all_or_nothing<T: MySerialize>(alloc: Global, value: &T, len: usize) -> bool {
    let (mut written, mut failed) = (false, false);
    for size in 1..=256usize {
        match written_in(alloc, value, size) {
            None => {}
            Some((Ok(()), all)) if all == len.wrapping_add(2) => written = true,
            Some((Err(WireFault::Memory), 2)) => failed = true,
            Some(_) => return false,
        }
    }
    written && failed
}

fn sequences_without_memory(alloc: Global) -> bool {
    let numbers = [RawInt::<LeU128>::new(1), RawInt::<LeU128>::new(2)];
    let seq = Seq::<'_, RawInt<LeU128>, LeU16>::new(CowSlice::Borrowed(&numbers));
    is_all_or_nothing(alloc, &seq, 34)
}

/// Whether the text is written, with one byte for its length or its end, or returns an error.
fn text_is_all_or_nothing<T: BytesRepr>(alloc: Global, text: &[u8]) -> bool {
    let raw = RawBytes::<T>::new(CowSlice::Borrowed(text));
    is_all_or_nothing(alloc, &raw, text.len().wrapping_add(1))
}

fn texts_without_memory(alloc: Global) -> bool {
    let text = [b't'; 100];
    text_is_all_or_nothing::<LenEnc>(alloc, &text)
        && text_is_all_or_nothing::<U8Bytes>(alloc, &text)
        && text_is_all_or_nothing::<NullBytes>(alloc, &text)
}

#[test]
fn memory(rt: HostRuntime) {
    let alloc = rt.alloc();
    assert!(rt; sequences_without_memory(alloc));
    assert!(rt; texts_without_memory(alloc));
}
