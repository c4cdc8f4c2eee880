//! Running out of memory for the texts of values. The texts are cases of `rows_cases`.

use feed_text::{put_decimal, put_value, quote};
use linked_list_allocator::LocalHeap;
use rows_errors::RowsError;
use rows_values::Value;
use std::alloc::Global;

/// The result of writing a text with limited memory.
#[derive(Clone, Copy)]
pub(crate) enum Outcome {
    /// There isn't enough memory for the bytes before the text.
    TooSmall,
    /// The text is written.
    Written,
    /// Out of memory is returned, and the bytes before the text are unchanged.
    Refused,
    /// None of these.
    Wrong,
}

/// The result of writing a value's text, of this length and after two bytes, with this much memory.
fn outcome_of(alloc: Global, value: &Value, len: usize, size: usize) -> Outcome {
    let Ok(heap) = LocalHeap::new(alloc, size) else {
        return Outcome::Wrong;
    };
    let mut out = Vec::new(&heap);
    let Ok(()) = out.extend_from_slice(b"ab") else {
        return Outcome::TooSmall;
    };
    let put = put_value(value, &mut out);
    if put == Ok(()) && out.len() == len {
        Outcome::Written
    } else if put == Err(RowsError::Memory) && out.as_slice() == b"ab".as_slice() {
        Outcome::Refused
    } else {
        Outcome::Wrong
    }
}

/// Whether, for every size of memory, the value's text is written or memory runs out, and both occur.
fn is_written_or_failed(alloc: Global, value: Value, len: usize) -> bool {
    let (mut written, mut failed) = (false, false);
    for size in 1..=256usize {
        match outcome_of(alloc, &value, len, size) {
            Outcome::TooSmall => {}
            Outcome::Written => written = true,
            Outcome::Refused => failed = true,
            Outcome::Wrong => return false,
        }
    }
    written && failed
}

// Each size of memory runs out at a different allocation: the error is returned, and the bytes before are unchanged.
fn out_of_memory(alloc: Global) -> bool {
    match Vec::from_slice(alloc, b"a longer text\nof two lines, it's quoted\n") {
        Ok(text) => is_written_or_failed(alloc, Value::Bytes(text), 50),
        Err(_) => false,
    }
}

fn out_of_memory_for_numbers_and_times(alloc: Global) -> bool {
    is_written_or_failed(alloc, Value::Int(i64::MIN), 22)
        && is_written_or_failed(alloc, Value::Double(0x3ff0_0000_0000_0000), 19)
        && is_written_or_failed(alloc, Value::Date(2009, 9, 24, 9, 3, 57, 0), 28)
        && is_written_or_failed(alloc, Value::Time(true, 34, 22, 59, 59, 45), 21)
}

fn out_of_memory_for_bytes(alloc: Global) -> bool {
    let Ok(heap) = LocalHeap::new(alloc, 32) else {
        return false;
    };
    let mut out = Vec::new(&heap);
    quote(&[b'a'; 64], &mut out) == Err(RowsError::Memory) && out.is_empty()
}

fn out_of_memory_for_decimals(alloc: Global) -> bool {
    let Ok(heap) = LocalHeap::new(alloc, 32) else {
        return false;
    };
    let mut out = Vec::new(&heap);
    let mut packed = [0; 27];
    packed[0] = 0x80;
    put_decimal(&packed, 60, 0, &mut out) == Err(RowsError::Memory) && out.is_empty()
}

#[test]
fn texts(rt: HostRuntime) {
    let alloc = rt.alloc();
    assert!(rt; out_of_memory(alloc));
    assert!(rt; out_of_memory_for_numbers_and_times(alloc));
    assert!(rt; out_of_memory_for_bytes(alloc));
    assert!(rt; out_of_memory_for_decimals(alloc));
}
