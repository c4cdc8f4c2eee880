//! The representations of byte strings: read, and written again, by each call that reads or writes them.

use crate::wire_words::{len_of, name_and_argument, put_long_bytes, put_long_rest};
use crate::words::{Fault, bytes_of, done, put_text};
use feed_text::quote;
use std::alloc::Global;
use std::borrow::CowSlice;
use std::io::Write;
use wire_buf::{MyDeserialize, MySerialize, ParseBuf, WireFault, WireSize};
use wire_fields::{
    BareU8Bytes, BareU16Bytes, BytesRepr, EofBytes, FixedLengthText, LenEnc, RawBytes,
    U8Bytes, VarLen, lenenc_str_len,
};
use wire_fields_extra::{BufMutExt, NullBytes, ReadMysqlExt, U32Bytes, WriteMysqlExt};
use wire_fields_extra::laws::read_back_bytes;

/// What a case does with a representation.
#[derive(Clone, Copy)]
enum Task<'a> {
    /// Reads the string that the bytes begin with.
    Read(&'a [u8]),
    /// Writes the string.
    Write(&'a [u8]),
}

/// The string that the buffer's own call for a representation reads, or None; the outer None if there is no such call.
fn eaten<'a>(form: &str, buf: &mut ParseBuf<'a>) -> Option<Option<&'a [u8]>> {
    match form {
        "U8Bytes" => Some(buf.checked_eat_u8_str()),
        "U32Bytes" => Some(buf.checked_eat_u32_str()),
        "LenEnc" => Some(buf.checked_eat_lenenc_str()),
        "EofBytes" => Some(Some(buf.eat_all())),
        "NullBytes" if buf.0.contains(&0) => Some(Some(buf.eat_null_str())),
        _ => None,
    }
}

/// The string by the call that needs its bytes to be there; None if there is no such call.
fn unchecked<'a>(form: &str, buf: &mut ParseBuf<'a>) -> Option<&'a [u8]> {
    match form {
        "U8Bytes" => Some(buf.eat_u8_str()),
        "U32Bytes" => Some(buf.eat_u32_str()),
        "LenEnc" => Some(buf.eat_lenenc_str()),
        _ => None,
    }
}

/// Appends a remark if the buffer's own call reads another string than this, or leaves other bytes; without a string it must
/// take no byte.
fn put_other_eaten(
    form: &str,
    bytes: &[u8],
    wanted: Option<(&[u8], &[u8])>,
    out: &mut Vec<u8>,
) -> Result<(), Fault> {
    let mut buf = ParseBuf(bytes);
    let Some(read) = eaten(form, &mut buf) else {
        return Ok(());
    };
    let is_same = match (read, wanted) {
        (Some(read), Some((wanted, rest))) => read == wanted && buf.0 == rest,
        (None, None) => buf.0 == bytes,
        _ => false,
    };
    let mut again = ParseBuf(bytes);
    let is_again = match wanted {
        Some((wanted, rest)) => match unchecked(form, &mut again) {
            Some(text) => text == wanted && again.0 == rest,
            None => true,
        },
        None => true,
    };
    if is_same && is_again {
        return Ok(());
    }
    put_text("otherwise by ParseBuf ", out)
}

/// Appends a remark if a stream or `eat_lenenc_str` gives another length-encoded string than this.
fn put_other_lenenc(
    alloc: Global,
    bytes: &[u8],
    wanted: Result<&[u8], WireFault>,
    out: &mut Vec<u8>,
) -> Result<(), Fault> {
    let mut stream = bytes;
    let is_same = match (stream.read_lenenc_str(alloc), wanted) {
        (Ok(read), Ok(wanted)) => read.as_slice() == wanted,
        (Err(fault), Err(wanted)) => fault == wanted,
        _ => false,
    };
    if !is_same {
        put_text("otherwise from a stream ", out)?;
    }
    if let Ok(wanted) = wanted {
        let mut buf = ParseBuf(bytes);
        if buf.eat_lenenc_str() != wanted || buf.0 != stream {
            put_text("otherwise by eat_lenenc_str ", out)?;
        }
    }
    Ok(())
}

/// Whether the string has these bytes, by each of its calls, and no others.
fn has_bytes<T: BytesRepr>(raw: &RawBytes<'_, T>, bytes: &[u8], longer: &[u8]) -> bool {
    raw.as_bytes() == bytes
        && raw.eq_bytes(bytes)
        && !raw.eq_bytes(longer)
        && raw.len() == bytes.len()
        && raw.is_empty() == bytes.is_empty()
}

/// Whether strings that are made of the bytes, borrowed and owned, equal the string, and so do its copy and the owned string.
fn is_made_alike<T: BytesRepr>(
    alloc: Global,
    raw: RawBytes<'_, T>,
    bytes: &[u8],
) -> Result<bool, Fault> {
    let copy = raw.clone(alloc)?;
    let is_same = raw == copy
        && raw == RawBytes::new(CowSlice::Borrowed(bytes))
        && raw == RawBytes::from(CowSlice::Borrowed(bytes))
        && raw == RawBytes::from(bytes)
        && raw == RawBytes::from(Vec::from_slice(alloc, bytes)?);
    let owned = raw.into_owned(alloc)?;
    Ok(is_same && owned == copy && owned.as_bytes() == bytes)
}

/// Appends the string between quotes, and its text, if that differs.
fn put_string<T: BytesRepr>(
    alloc: Global,
    raw: RawBytes<'_, T>,
    out: &mut Vec<u8>,
) -> Result<(), Fault> {
    let bytes = Vec::from_slice(alloc, raw.as_bytes())?;
    let mut longer = Vec::from_slice(alloc, &bytes)?;
    longer.push(b'x')?;
    quote(&bytes, out)?;
    let shown = raw.as_str(alloc)?;
    if shown.as_str().as_bytes() != bytes.as_slice() {
        put_text(" as text ", out)?;
        quote(shown.as_str().as_bytes(), out)?;
    }
    drop(shown);
    if !has_bytes(&raw, &bytes, &longer) {
        put_text(" of other bytes", out)?;
    }
    if !is_made_alike(alloc, raw, &bytes)? {
        put_text(" made otherwise", out)?;
    }
    Ok(())
}

/// The bytes that are written for the string after two others, or the error, which must leave these two.
fn written<T: BytesRepr>(alloc: Global, text: &[u8]) -> Result<Vec<u8>, Fault> {
    let mut bytes = Vec::from_slice(alloc, b"ab")?;
    if let Err(fault) = RawBytes::<T>::new(CowSlice::Borrowed(text)).serialize(&mut bytes) {
        return if bytes.as_slice() == b"ab".as_slice() {
            Err(Fault::Wire(fault))
        } else {
            Err(Fault::NoCase)
        };
    }
    Ok(Vec::from_slice(alloc, bytes.get(2..).unwrap_or(b""))?)
}

/// Appends a remark if the constants `SIZE` of a representation differ from one another.
fn put_sizes<T: BytesRepr>(out: &mut Vec<u8>) -> Result<(), Fault> {
    let size = T::SIZE;
    if size == <T::Size as WireSize>::SIZE && size == <RawBytes<'_, T> as MyDeserialize<'_>>::SIZE {
        return Ok(());
    }
    put_text(" of another size", out)
}

/// Appends the error of reading a string.
fn put_read_error(
    alloc: Global,
    form: &str,
    bytes: &[u8],
    fault: WireFault,
    out: &mut Vec<u8>,
) -> Result<(), Fault> {
    put_other_eaten(form, bytes, None, out)?;
    if form == "LenEnc" {
        put_other_lenenc(alloc, bytes, Err(fault), out)?;
    }
    done(write!(out, "{fault:?}"))
}

/// Appends the string that the bytes begin with, by `RawBytes`, and remarks for what differs.
fn put_read<T: BytesRepr>(
    alloc: Global,
    form: &str,
    ctx: T::Ctx,
    bytes: &[u8],
    out: &mut Vec<u8>,
) -> Result<(), Fault> {
    let mut buf = ParseBuf(bytes);
    let raw = match buf.parse::<RawBytes<'_, T>>(alloc, ctx) {
        Ok(raw) => raw,
        Err(fault) => return put_read_error(alloc, form, bytes, fault, out),
    };
    put_other_eaten(form, bytes, Some((raw.as_bytes(), buf.0)), out)?;
    if form == "LenEnc" {
        put_other_lenenc(alloc, bytes, Ok(raw.as_bytes()), out)?;
    }
    let again = written::<T>(alloc, raw.as_bytes())?;
    put_string(alloc, raw, out)?;
    put_sizes::<T>(out)?;
    if again.as_slice() != &bytes[..bytes.len().saturating_sub(buf.len())] {
        put_text(" written ", out)?;
        put_long_bytes(&again, out)?;
    }
    put_long_rest(buf.0, out)
}

/// Writes the string by the call of `BufMutExt` for the representation; None if there is none.
fn put_by_buf_mut(form: &str, text: &[u8], bytes: &mut Vec<u8>) -> Option<Result<(), WireFault>> {
    match form {
        "LenEnc" => Some(bytes.put_lenenc_str(text)),
        "U8Bytes" => Some(bytes.put_u8_str(text)),
        "U32Bytes" => Some(bytes.put_u32_str(text)),
        _ => None,
    }
}

/// Appends a remark for each other call that writes other bytes after two others.
fn put_other_put(
    alloc: Global,
    form: &str,
    text: &[u8],
    wanted: &[u8],
    out: &mut Vec<u8>,
) -> Result<(), Fault> {
    let mut bytes = Vec::from_slice(alloc, b"ab")?;
    if let Some(put) = put_by_buf_mut(form, text, &mut bytes) {
        if put != Ok(()) || bytes.get(2..) != Some(wanted) {
            put_text(" otherwise by BufMutExt", out)?;
        }
    }
    if form == "LenEnc" {
        let len = wanted.len() as u64;
        let mut stream: Vec<u8> = Vec::from_slice(alloc, b"ab")?;
        if stream.write_lenenc_str(text) != Ok(len) || stream.get(2..) != Some(wanted) {
            put_text(" otherwise to a stream", out)?;
        }
        if lenenc_str_len(text) != len {
            put_text(" of another length", out)?;
        }
    }
    Ok(())
}

/// Appends the bytes that are written for the string; and what is read back from them, if it differs.
fn put_write<T: BytesRepr>(
    alloc: Global,
    form: &str,
    ctx: T::Ctx,
    text: &[u8],
    out: &mut Vec<u8>,
) -> Result<(), Fault> {
    let bytes = written::<T>(alloc, text)?;
    put_long_bytes(&bytes, out)?;
    put_other_put(alloc, form, text, &bytes, out)?;
    let back = read_back_bytes::<T>(alloc, ctx, text)?;
    if back.as_slice() != text {
        put_text(" read back as ", out)?;
        put_long_bytes(&back, out)?;
    }
    Ok(())
}

/// Appends the result of a task in this representation.
fn put_task<T: BytesRepr>(
    alloc: Global,
    form: &str,
    ctx: T::Ctx,
    task: Task<'_>,
    out: &mut Vec<u8>,
) -> Result<(), Fault> {
    match task {
        Task::Read(bytes) => put_read::<T>(alloc, form, ctx, bytes, out),
        Task::Write(text) => put_write::<T>(alloc, form, ctx, text, out),
    }
}

/// Appends the result of a task in the representation with this name. The length of a bare string is after a `:`, where it is
/// read.
fn put_form(alloc: Global, word: &str, task: Task<'_>, out: &mut Vec<u8>) -> Result<(), Fault> {
    let (form, len) = name_and_argument(word);
    let len = |most: usize| match task {
        Task::Read(_) => len_of(len),
        Task::Write(text) => Ok(text.len().min(most)),
    };
    match form {
        "BareU8Bytes" => put_task::<BareU8Bytes>(alloc, form, len(255)?, task, out),
        "BareU16Bytes" => put_task::<BareU16Bytes>(alloc, form, len(65_535)?, task, out),
        "EofBytes" => put_task::<EofBytes>(alloc, form, (), task, out),
        "FixedLengthText2" => put_task::<FixedLengthText<2>>(alloc, form, (), task, out),
        "FixedLengthText4" => put_task::<FixedLengthText<4>>(alloc, form, (), task, out),
        "LenEnc" => put_task::<LenEnc>(alloc, form, (), task, out),
        "NullBytes" => put_task::<NullBytes>(alloc, form, (), task, out),
        "U8Bytes" => put_task::<U8Bytes>(alloc, form, (), task, out),
        "U32Bytes" => put_task::<U32Bytes>(alloc, form, (), task, out),
        "VarLen" => put_task::<VarLen>(alloc, form, (), task, out),
        _ => Err(Fault::NoCase),
    }
}

/// `text FORM BYTES`: the string of this representation that the bytes begin with, by `RawBytes`, `ParseBuf` and
/// `ReadMysqlExt`, with a remark for each that differs; what is written for it, if this differs; and the bytes after it, if
/// there are any.
///
/// `write_text FORM TEXT`: the bytes that are written for the string, by `RawBytes`, `BufMutExt` and `WriteMysqlExt`, with a
/// remark for each that differs; and what is read back from them, if it is another string.
pub(crate) fn put_of_text(
    alloc: Global,
    call: &str,
    arguments: &[&str],
    out: &mut Vec<u8>,
) -> Result<(), Fault> {
    let [form, bytes] = arguments else {
        return Err(Fault::NoCase);
    };
    let bytes = bytes_of(alloc, bytes)?;
    match call {
        "text" => put_form(alloc, form, Task::Read(&bytes), out),
        _ => put_form(alloc, form, Task::Write(&bytes), out),
    }
}
