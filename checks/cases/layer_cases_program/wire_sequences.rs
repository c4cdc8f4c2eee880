//! Sequences: their counts in each representation, their elements, and the calls that change or copy them.

use crate::wire_words::{len_of, name_and_argument, put_long_bytes, put_long_rest, signed_of};
use crate::words::{Fault, bytes_of, done, number_of, put_bytes, put_number, put_text};
use std::alloc::Global;
use std::borrow::CowSlice;
use std::io::Write;
use wire_buf::{Inner, MyDeserialize, MySerialize, ParseBuf, WireSize};
use wire_constants::ColumnType;
use wire_fields::{
    BeU16, BeU24, BeU32, BeU40, BeU48, BeU56, BeU64, BeU128, IntRepr, LeU16, LeU24, LeU32, LeU40,
    LeU48, LeU56, LeU64, LeU128, RawBytes, RawInt, U8Bytes,
};
use wire_fields_extra::{RawSeq, Seq, SeqRepr, Unknown};

/// Appends a remark if the constant `SIZE` of a field isn't the one of its type `Size`.
fn put_sizes<'de, V: MyDeserialize<'de>>(out: &mut Vec<u8>) -> Result<(), Fault> {
    if V::SIZE == <V::Size as WireSize>::SIZE {
        return Ok(());
    }
    put_text(" of another size", out)
}

/// Appends what is written for a value, if it isn't the bytes that were read, and the bytes after those, if there are any.
fn put_end<V: MySerialize>(
    alloc: Global,
    value: &V,
    bytes: &[u8],
    rest: &[u8],
    out: &mut Vec<u8>,
) -> Result<(), Fault> {
    let mut written = Vec::new(alloc);
    value.serialize(&mut written)?;
    if written.as_slice() != &bytes[..bytes.len().saturating_sub(rest.len())] {
        put_text(" written ", out)?;
        put_long_bytes(&written, out)?;
    }
    put_long_rest(rest, out)
}

/// Appends a remark if the count alone isn't read as this one, or isn't written as the bytes begin, before this many others.
fn put_other_count<U: SeqRepr>(
    alloc: Global,
    ctx: U::Ctx,
    count: usize,
    bytes: &[u8],
    out: &mut Vec<u8>,
) -> Result<(), Fault> {
    let mut buf = ParseBuf(bytes);
    let mut written = Vec::new(alloc);
    if U::read_count(ctx, &mut buf) != Ok(count) {
        put_text(" of another count", out)?;
    }
    if count > U::MAX_LEN {
        return put_text(" of more than the largest count", out);
    }
    U::write_count(count, &mut written)?;
    if written.as_slice() != &bytes[..bytes.len().saturating_sub(buf.len())] {
        put_text(" count written otherwise", out)?;
    }
    Ok(())
}

/// Appends the numbers of a sequence, and remarks for what differs.
fn put_numbers<U: SeqRepr>(
    alloc: Global,
    ctx: U::Ctx,
    again: U::Ctx,
    bytes: &[u8],
    out: &mut Vec<u8>,
) -> Result<(), Fault> {
    let mut buf = ParseBuf(bytes);
    let numbers = buf.parse::<Seq<'_, RawInt<LeU16>, U>>(alloc, ctx)?;
    if numbers.is_empty() {
        put_text("none", out)?;
    }
    for (index, number) in numbers.0.as_slice().iter().enumerate() {
        if index > 0 {
            out.push(b' ')?;
        }
        put_number(u64::from(number.0), out)?;
    }
    let borrowed = Seq::<'_, RawInt<LeU16>, U>::new(CowSlice::Borrowed(numbers.0.as_slice()));
    if !(borrowed == numbers) || numbers.len() != numbers.0.len() {
        put_text(" made otherwise", out)?;
    }
    let (empty, default) = (Seq::<'_, u8, U>::empty(), Seq::<'_, u8, U>::default());
    if !empty.is_empty() || !(empty == default) || borrowed.first() != numbers.0.as_slice().first() {
        put_text(" empty otherwise", out)?;
    }
    put_other_count::<U>(alloc, again, numbers.len(), bytes, out)?;
    put_sizes::<Seq<'_, RawInt<LeU16>, U>>(out)?;
    put_end(alloc, &numbers, bytes, buf.0, out)
}

/// Appends the numbers of a sequence whose count is in this representation.
fn put_counted<U: SeqRepr<Ctx = ()>>(
    alloc: Global,
    bytes: &[u8],
    out: &mut Vec<u8>,
) -> Result<(), Fault> {
    put_numbers::<U>(alloc, (), (), bytes, out)
}

/// Appends the numbers of a sequence whose count is in the representation with this name, or after a `:`.
fn put_by_count(alloc: Global, word: &str, bytes: &[u8], out: &mut Vec<u8>) -> Result<(), Fault> {
    let (form, count) = name_and_argument(word);
    match form {
        "u8" => put_counted::<u8>(alloc, bytes, out),
        "LeU16" => put_counted::<LeU16>(alloc, bytes, out),
        "LeU24" => put_counted::<LeU24>(alloc, bytes, out),
        "LeU32" => put_counted::<LeU32>(alloc, bytes, out),
        "LeU40" => put_counted::<LeU40>(alloc, bytes, out),
        "LeU48" => put_counted::<LeU48>(alloc, bytes, out),
        "LeU56" => put_counted::<LeU56>(alloc, bytes, out),
        "LeU64" => put_counted::<LeU64>(alloc, bytes, out),
        "LeU128" => put_counted::<LeU128>(alloc, bytes, out),
        "BeU16" => put_counted::<BeU16>(alloc, bytes, out),
        "BeU24" => put_counted::<BeU24>(alloc, bytes, out),
        "BeU32" => put_counted::<BeU32>(alloc, bytes, out),
        "BeU40" => put_counted::<BeU40>(alloc, bytes, out),
        "BeU48" => put_counted::<BeU48>(alloc, bytes, out),
        "BeU56" => put_counted::<BeU56>(alloc, bytes, out),
        "BeU64" => put_counted::<BeU64>(alloc, bytes, out),
        "BeU128" => put_counted::<BeU128>(alloc, bytes, out),
        "Unknown" => {
            let count = len_of(count)?;
            put_numbers::<Unknown>(alloc, count, count, bytes, out)
        }
        _ => Err(Fault::NoCase),
    }
}

/// Byte strings whose count comes from the context.
type Texts<'a> = Seq<'a, RawBytes<'a, U8Bytes>, Unknown>;

/// Appends the strings of a sequence with this count.
fn put_texts(alloc: Global, count: usize, bytes: &[u8], out: &mut Vec<u8>) -> Result<(), Fault> {
    let mut buf = ParseBuf(bytes);
    let texts = buf.parse::<Texts<'_>>(alloc, count)?;
    for (index, text) in texts.0.as_slice().iter().enumerate() {
        if index > 0 {
            out.push(b' ')?;
        }
        put_bytes(text.as_bytes(), out)?;
    }
    put_end(alloc, &texts, bytes, buf.0, out)
}

/// A count of two bytes, and bytes.
type Bytes<'a> = Seq<'a, u8, LeU16>;

/// Whether a copy equals the sequence until a byte is appended to this one.
fn grows_apart(alloc: Global, seq: &mut Bytes<'_>) -> Result<bool, Fault> {
    let copy = seq.clone(alloc)?;
    let was_same = copy == *seq;
    seq.push(alloc, 7)?;
    Ok(was_same && !(copy == *seq) && seq.len() == copy.len().saturating_add(1))
}

/// `bytes_sequence BYTES`: the elements of a sequence of bytes with these elements, after its copy was compared and another
/// byte appended, borrowed and owned.
fn put_grown(alloc: Global, bytes: &[u8], out: &mut Vec<u8>) -> Result<(), Fault> {
    let mut seq = Bytes::new(CowSlice::Borrowed(bytes));
    if seq.is_empty() != bytes.is_empty() || (seq == Bytes::empty()) != bytes.is_empty() {
        put_text("not empty alike ", out)?;
    }
    if !(Bytes::default() == Bytes::empty()) || !Bytes::default().is_empty() {
        put_text("not empty by default ", out)?;
    }
    if !grows_apart(alloc, &mut seq)? {
        put_text("not copied ", out)?;
    }
    let copy = seq.clone(alloc)?;
    put_bytes(&seq, out)?;
    let owned = seq.into_owned(alloc)?;
    if !(owned == copy) || owned.is_empty() {
        put_text(" not owned", out)?;
    }
    Ok(())
}

/// Appends the numbers of a raw sequence, and the column type of each, or the text of the error.
fn put_types(types: &RawSeq<'_, u8, ColumnType>, out: &mut Vec<u8>) -> Result<(), Fault> {
    if types.is_empty() {
        put_text("none", out)?;
    }
    for index in 0..types.len() {
        if index > 0 {
            out.push(b' ')?;
        }
        match types.get(index).map(|raw| raw.get()) {
            Some(Ok(column_type)) => done(write!(out, "{column_type:?}"))?,
            Some(Err(unknown)) => put_number(u64::from(u8::from(unknown)), out)?,
            None => put_text("none", out)?,
        }
    }
    if types.get(types.len()).is_some() {
        put_text(" and more", out)?;
    }
    Ok(())
}

/// Appends a remark if the copy of a raw sequence or the owned one differs from it.
fn put_copies<T: IntRepr>(
    alloc: Global,
    numbers: RawSeq<'_, T, ColumnType>,
    out: &mut Vec<u8>,
) -> Result<(), Fault>
where
    T::Primitive: Clone + PartialEq + Drop,
{
    let copy = numbers.clone(alloc)?;
    let is_same = copy == numbers
        && numbers == RawSeq::new(CowSlice::Borrowed(copy.0.as_slice()))
        && copy.is_empty() == (copy.len() == 0);
    if !is_same || !(numbers.into_owned(alloc)? == copy) {
        put_text(" not copied", out)?;
    }
    Ok(())
}

/// Appends the numbers of a raw sequence of bytes.
fn put_raw_bytes(
    alloc: Global,
    count: usize,
    bytes: &[u8],
    out: &mut Vec<u8>,
) -> Result<(), Fault> {
    let mut buf = ParseBuf(bytes);
    let types = buf.parse::<RawSeq<'_, u8, ColumnType>>(alloc, count)?;
    put_types(&types, out)?;
    put_sizes::<RawSeq<'_, u8, ColumnType>>(out)?;
    put_end(alloc, &types, bytes, buf.0, out)?;
    put_copies(alloc, types, out)
}

/// Appends the numbers of a raw sequence of two-byte numbers.
fn put_raw_numbers(
    alloc: Global,
    count: usize,
    bytes: &[u8],
    out: &mut Vec<u8>,
) -> Result<(), Fault> {
    let mut buf = ParseBuf(bytes);
    let numbers = buf.parse::<RawSeq<'_, LeU16, ColumnType>>(alloc, count)?;
    for (index, number) in numbers.0.as_slice().iter().enumerate() {
        if index > 0 {
            out.push(b' ')?;
        }
        put_number(u64::from(*number), out)?;
    }
    put_end(alloc, &numbers, bytes, buf.0, out)?;
    put_copies(alloc, numbers, out)
}

/// `sequence COUNT BYTES`: the two-byte numbers of a sequence whose count is in this representation, or for `Unknown` after a
/// `:`; what is written for it, if this differs; and the bytes after it, if there are any.
///
/// `texts COUNT BYTES`: strings with a length of one byte; `raw_sequence FORM:COUNT BYTES`: numbers, as column types if they
/// have one byte. `grown BYTES`: a sequence with these bytes, after one more byte was appended.
pub(crate) fn put_of_sequence(
    alloc: Global,
    call: &str,
    arguments: &[&str],
    out: &mut Vec<u8>,
) -> Result<(), Fault> {
    match (call, arguments) {
        ("sequence", [count, bytes]) => put_by_count(alloc, count, &bytes_of(alloc, bytes)?, out),
        ("texts", [count, bytes]) => {
            put_texts(alloc, len_of(count)?, &bytes_of(alloc, bytes)?, out)
        }
        ("grown", [bytes]) => put_grown(alloc, &bytes_of(alloc, bytes)?, out),
        ("raw_sequence", [word, bytes]) => {
            let bytes = bytes_of(alloc, bytes)?;
            match name_and_argument(word) {
                ("u8", count) => put_raw_bytes(alloc, len_of(count)?, &bytes, out),
                ("LeU16", count) => put_raw_numbers(alloc, len_of(count)?, &bytes, out),
                _ => Err(Fault::NoCase),
            }
        }
        _ => Err(Fault::NoCase),
    }
}

/// Appends what is written after a byte for a sequence of these elements, or the error, which must leave the byte.
fn put_elements<T: Inner + Drop, U: SeqRepr>(
    alloc: Global,
    elements: Vec<T>,
    out: &mut Vec<u8>,
) -> Result<(), Fault> {
    let seq = Seq::<'_, T, U>::new(CowSlice::Owned(elements));
    let mut written = Vec::from_slice(alloc, b"\x09")?;
    match seq.serialize(&mut written) {
        Ok(()) => put_long_bytes(written.get(1..).unwrap_or(b""), out),
        Err(fault) => {
            done(write!(out, "{fault:?}"))?;
            if written.as_slice() != b"\x09".as_slice() {
                put_text(" after some bytes", out)?;
            }
            Ok(())
        }
    }
}

/// The elements of a word: numbers with `,` between them, each of which may have a count after a `*`.
fn elements_of<T: IntRepr>(alloc: Global, word: &str) -> Result<Vec<RawInt<T>>, Fault>
where
    T::Primitive: TryFrom<i128>,
    <T::Primitive as TryFrom<i128>>::Error: Drop,
{
    let mut elements = Vec::new(alloc);
    for piece in word.split(',') {
        let (number, count) = match piece.split_once('*') {
            Some((number, count)) => (number, number_of(count)?),
            None => (piece, 1),
        };
        let Ok(number) = T::Primitive::try_from(signed_of(number)?) else {
            return Err(Fault::NoCase);
        };
        for _ in 0..count {
            elements.push(RawInt::<T>::new(number))?;
        }
    }
    Ok(elements)
}

/// `write_sequence FORM COUNT NUMBERS`: the bytes that are written for a sequence of numbers in this representation, after
/// their count in another.
pub(crate) fn put_written_sequence(
    alloc: Global,
    arguments: &[&str],
    out: &mut Vec<u8>,
) -> Result<(), Fault> {
    match arguments {
        ["u8", "u8", word] => put_elements::<_, u8>(alloc, elements_of::<u8>(alloc, word)?, out),
        ["LeU16", "u8", word] => {
            put_elements::<_, u8>(alloc, elements_of::<LeU16>(alloc, word)?, out)
        }
        ["LeU24", "u8", word] => {
            put_elements::<_, u8>(alloc, elements_of::<LeU24>(alloc, word)?, out)
        }
        ["u8", "LeU16", word] => {
            put_elements::<_, LeU16>(alloc, elements_of::<u8>(alloc, word)?, out)
        }
        ["LeU16", "Unknown", word] => {
            put_elements::<_, Unknown>(alloc, elements_of::<LeU16>(alloc, word)?, out)
        }
        _ => Err(Fault::NoCase),
    }
}
