//! Writing values: completely, with their length, and also if memory may run out.

use crate::event_words::put_unless;
use crate::words::{Fault, put_written};
use linked_list_allocator::LocalHeap;
use std::alloc::Global;
use wire_buf::{MySerialize, WireFault};

/// The result of writing a value after `ab` with this much memory: the result of the call, the number of bytes afterwards, and
/// whether the first two are still `ab`. None if there is no memory for these two.
fn written_in<T: MySerialize>(
    alloc: Global,
    value: &T,
    size: usize,
) -> Option<(Result<(), WireFault>, usize, bool)> {
    let Ok(heap) = LocalHeap::new(alloc, size) else {
        return None;
    };
    let mut out = Vec::new(&heap);
    let Ok(()) = out.extend_from_slice(b"ab") else {
        return None;
    };
    let result = value.serialize(&mut out);
    Some((result, out.len(), out.as_slice().starts_with(b"ab")))
}

/// Whether a value of this length is written in some memory sizes up to 1,024 bytes, memory runs out in others, and the value is
/// never written partly. Memory comes in words of 8 bytes, and the smallest buffer has 8 bytes.
fn is_all_or_nothing<T: MySerialize>(alloc: Global, value: &T, len: usize) -> bool {
    let (mut written, mut failed) = (0, 0);
    for words in 1..=128usize {
        match written_in(alloc, value, 8 * words) {
            None => {}
            Some((Ok(()), all, true)) if all == len + 2 => written += 1,
            Some((Err(WireFault::Memory), 2, true)) => failed += 1,
            Some(_) => return false,
        }
    }
    written > 0 && (failed > 0 || len <= 6)
}

/// The bytes that are written for a value. Those that are written before an error are no result of any case.
pub(crate) fn written<T: MySerialize>(alloc: Global, value: &T) -> Result<Vec<u8>, Fault> {
    let mut bytes = Vec::new(alloc);
    match value.serialize(&mut bytes) {
        Ok(()) => Ok(bytes),
        Err(fault) if bytes.is_empty() => Err(Fault::Wire(fault)),
        Err(_) => Err(Fault::NoCase),
    }
}

/// Appends the bytes that are written for a value whose `len` is this, if they differ from those that were read. A value of up to
/// 600 bytes is also written in little memory.
pub(crate) fn put_value_written<T: MySerialize>(
    alloc: Global,
    value: &T,
    len: usize,
    bytes: &[u8],
    out: &mut Vec<u8>,
) -> Result<(), Fault> {
    let written = written(alloc, value)?;
    put_written(&written, bytes, out)?;
    put_unless(len == written.len(), "of another length", out)?;
    let is_whole = len == 0 || len > 600 || is_all_or_nothing(alloc, value, len);
    put_unless(is_whole, "written partly if memory runs out", out)
}
