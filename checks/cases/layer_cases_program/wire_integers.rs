//! The representations of integers: read, and written again, by each call that reads or writes them.

use crate::wire_words::signed_of;
use crate::words::{Fault, bytes_of, done, put_bytes, put_number, put_rest, put_text, put_written};
use std::alloc::Global;
use std::fmt::Display;
use std::io::Write;
use wire_buf::{MyDeserialize, MySerialize, ParseBuf, WireFault, WireSize};
use wire_fields::{
    BeI16, BeI24, BeI32, BeI40, BeI48, BeI56, BeI64, BeI128, BeU16, BeU24, BeU32, BeU40, BeU48,
    BeU56, BeU64, BeU128, IntRepr, LeI16, LeI24, LeI32, LeI40, LeI48, LeI56, LeI64,
    LeI128, LeU16, LeU24, LeU32, LeU40, LeU48, LeU56, LeU64, LeU128, LenEnc, RawInt, VarLen,
    lenenc_int_len,
};
use wire_fields_extra::laws::read_back;
use wire_fields_extra::{
    BufMutExt, LeU32LowerHalf, LeU32UpperHalf, ReadMysqlExt, WriteMysqlExt, read_varlen_uint, varlen_uint_size,
    write_varlen_uint,
};

/// What a case does with a representation.
#[derive(Clone, Copy)]
enum Task<'a> {
    /// Reads the integer that the bytes begin with.
    Read(&'a [u8]),
    /// Writes the integer.
    Write(i128),
}

/// Appends the number, if there is one; returns whether there is.
fn put_some<N: Display + Drop>(number: Option<N>, out: &mut Vec<u8>) -> Result<bool, Fault> {
    match number {
        Some(number) => {
            done(write!(out, "{number}"))?;
            Ok(true)
        }
        None => Ok(false),
    }
}

/// Appends the number that the buffer's own call for a little-endian representation reads; returns whether there is one.
fn put_eaten_little(form: &str, buf: &mut ParseBuf<'_>, out: &mut Vec<u8>) -> Result<bool, Fault> {
    match form {
        "LeU16" => put_some(buf.checked_eat_u16_le(), out),
        "LeI16" => put_some(buf.checked_eat_i16_le(), out),
        "LeU24" => put_some(buf.checked_eat_u24_le(), out),
        "LeI24" => put_some(buf.checked_eat_i24_le(), out),
        "LeU32" => put_some(buf.checked_eat_u32_le(), out),
        "LeI32" => put_some(buf.checked_eat_i32_le(), out),
        "LeU40" => put_some(buf.checked_eat_u40_le(), out),
        "LeI40" => put_some(buf.checked_eat_i40_le(), out),
        "LeU48" => put_some(buf.checked_eat_u48_le(), out),
        "LeI48" => put_some(buf.checked_eat_i48_le(), out),
        "LeU56" => put_some(buf.checked_eat_u56_le(), out),
        "LeI56" => put_some(buf.checked_eat_i56_le(), out),
        "LeU64" => put_some(buf.checked_eat_u64_le(), out),
        "LeI64" => put_some(buf.checked_eat_i64_le(), out),
        "LeU128" => put_some(buf.checked_eat_u128_le(), out),
        "LeI128" => put_some(buf.checked_eat_i128_le(), out),
        _ => Err(Fault::NoCase),
    }
}

/// Appends the number that the buffer's own call for another representation reads; returns whether there is one.
fn put_eaten(form: &str, buf: &mut ParseBuf<'_>, out: &mut Vec<u8>) -> Result<bool, Fault> {
    match form {
        "u8" => put_some(buf.checked_eat_u8(), out),
        "i8" => put_some(buf.checked_eat_i8(), out),
        "BeU16" => put_some(buf.checked_eat_u16_be(), out),
        "BeI16" => put_some(buf.checked_eat_i16_be(), out),
        "BeU24" => put_some(buf.checked_eat_u24_be(), out),
        "BeI24" => put_some(buf.checked_eat_i24_be(), out),
        "BeU32" => put_some(buf.checked_eat_u32_be(), out),
        "BeI32" => put_some(buf.checked_eat_i32_be(), out),
        "BeU40" => put_some(buf.checked_eat_u40_be(), out),
        "BeI40" => put_some(buf.checked_eat_i40_be(), out),
        "BeU48" => put_some(buf.checked_eat_u48_be(), out),
        "BeI48" => put_some(buf.checked_eat_i48_be(), out),
        "BeU56" => put_some(buf.checked_eat_u56_be(), out),
        "BeI56" => put_some(buf.checked_eat_i56_be(), out),
        "BeU64" => put_some(buf.checked_eat_u64_be(), out),
        "BeI64" => put_some(buf.checked_eat_i64_be(), out),
        "BeU128" => put_some(buf.checked_eat_u128_be(), out),
        "BeI128" => put_some(buf.checked_eat_i128_be(), out),
        "LenEnc" => put_some(buf.checked_eat_lenenc_int(), out),
        _ => put_eaten_little(form, buf, out),
    }
}

/// Appends the number of a little-endian representation by the call that needs its bytes to be there.
fn put_unchecked_little(
    form: &str,
    buf: &mut ParseBuf<'_>,
    out: &mut Vec<u8>,
) -> Result<bool, Fault> {
    match form {
        "LeU16" => put_some(Some(buf.eat_u16_le()), out),
        "LeI16" => put_some(Some(buf.eat_i16_le()), out),
        "LeU24" => put_some(Some(buf.eat_u24_le()), out),
        "LeI24" => put_some(Some(buf.eat_i24_le()), out),
        "LeU32" => put_some(Some(buf.eat_u32_le()), out),
        "LeI32" => put_some(Some(buf.eat_i32_le()), out),
        "LeU40" => put_some(Some(buf.eat_u40_le()), out),
        "LeI40" => put_some(Some(buf.eat_i40_le()), out),
        "LeU48" => put_some(Some(buf.eat_u48_le()), out),
        "LeI48" => put_some(Some(buf.eat_i48_le()), out),
        "LeU56" => put_some(Some(buf.eat_u56_le()), out),
        "LeI56" => put_some(Some(buf.eat_i56_le()), out),
        "LeU64" => put_some(Some(buf.eat_u64_le()), out),
        "LeI64" => put_some(Some(buf.eat_i64_le()), out),
        "LeU128" => put_some(Some(buf.eat_u128_le()), out),
        "LeI128" => put_some(Some(buf.eat_i128_le()), out),
        _ => Err(Fault::NoCase),
    }
}

/// Appends the number of another representation by the call that needs its bytes to be there.
fn put_unchecked(form: &str, buf: &mut ParseBuf<'_>, out: &mut Vec<u8>) -> Result<bool, Fault> {
    match form {
        "u8" => put_some(Some(buf.eat_u8()), out),
        "i8" => put_some(Some(buf.eat_i8()), out),
        "BeU16" => put_some(Some(buf.eat_u16_be()), out),
        "BeI16" => put_some(Some(buf.eat_i16_be()), out),
        "BeU24" => put_some(Some(buf.eat_u24_be()), out),
        "BeI24" => put_some(Some(buf.eat_i24_be()), out),
        "BeU32" => put_some(Some(buf.eat_u32_be()), out),
        "BeI32" => put_some(Some(buf.eat_i32_be()), out),
        "BeU40" => put_some(Some(buf.eat_u40_be()), out),
        "BeI40" => put_some(Some(buf.eat_i40_be()), out),
        "BeU48" => put_some(Some(buf.eat_u48_be()), out),
        "BeI48" => put_some(Some(buf.eat_i48_be()), out),
        "BeU56" => put_some(Some(buf.eat_u56_be()), out),
        "BeI56" => put_some(Some(buf.eat_i56_be()), out),
        "BeU64" => put_some(Some(buf.eat_u64_be()), out),
        "BeI64" => put_some(Some(buf.eat_i64_be()), out),
        "BeU128" => put_some(Some(buf.eat_u128_be()), out),
        "BeI128" => put_some(Some(buf.eat_i128_be()), out),
        "LenEnc" => put_some(Some(buf.eat_lenenc_int()), out),
        _ => put_unchecked_little(form, buf, out),
    }
}

/// Whether the call that needs its bytes to be there reads this text, and leaves this rest.
fn is_unchecked(
    alloc: Global,
    form: &str,
    bytes: &[u8],
    wanted: (&[u8], &[u8]),
) -> Result<bool, Fault> {
    let mut buf = ParseBuf(bytes);
    let mut text = Vec::new(alloc);
    put_unchecked(form, &mut buf, &mut text)?;
    Ok(text.as_slice() == wanted.0 && buf.0 == wanted.1)
}

/// Appends a remark if the buffer's own call reads another number than this text, or leaves other bytes; without a number it
/// must take no byte. `VarLen` and the halves have no such call.
fn put_other_eaten(
    alloc: Global,
    form: &str,
    bytes: &[u8],
    wanted: Option<(&[u8], &[u8])>,
    out: &mut Vec<u8>,
) -> Result<(), Fault> {
    let mut buf = ParseBuf(bytes);
    let mut text = Vec::new(alloc);
    let Ok(is_there) = put_eaten(form, &mut buf, &mut text) else {
        return Ok(());
    };
    let is_same = match wanted {
        Some((wanted, rest)) => {
            is_there
                && text.as_slice() == wanted
                && buf.0 == rest
                && is_unchecked(alloc, form, bytes, (wanted, rest))?
        }
        None => !is_there && buf.0 == bytes,
    };
    if is_same {
        return Ok(());
    }
    put_text("otherwise by ParseBuf ", out)
}

/// Appends a remark if a stream or `eat_lenenc_int` gives another length-encoded integer or another error than this.
fn put_other_lenenc(
    read: Result<u64, WireFault>,
    bytes: &[u8],
    out: &mut Vec<u8>,
) -> Result<(), Fault> {
    let mut stream = bytes;
    if stream.read_lenenc_int() != read {
        put_text("otherwise from a stream ", out)?;
    }
    if let Ok(number) = read {
        let mut buf = ParseBuf(bytes);
        if buf.eat_lenenc_int() != number || buf.0 != stream {
            put_text("otherwise by eat_lenenc_int ", out)?;
        }
    }
    Ok(())
}

/// Appends the bytes that are written for the integer after two others, or the error, which must leave these two.
fn written<T: IntRepr>(alloc: Global, value: T::Primitive) -> Result<Vec<u8>, Fault> {
    let mut bytes = Vec::from_slice(alloc, b"ab")?;
    if let Err(fault) = RawInt::<T>::new(value).serialize(&mut bytes) {
        return if bytes.as_slice() == b"ab".as_slice() {
            Err(Fault::Wire(fault))
        } else {
            Err(Fault::NoCase)
        };
    }
    Ok(Vec::from_slice(alloc, bytes.get(2..).unwrap_or(b""))?)
}

/// Appends a remark if the constants `SIZE` of a representation differ from one another.
fn put_sizes<T: IntRepr>(out: &mut Vec<u8>) -> Result<(), Fault> {
    let size = T::SIZE;
    if size == <T::Size as WireSize>::SIZE && size == <RawInt<T> as MyDeserialize<'_>>::SIZE {
        return Ok(());
    }
    put_text(" of another size", out)
}

/// Appends the integer that the bytes begin with, by `RawInt`, and remarks for what differs.
fn put_read<T: IntRepr>(
    alloc: Global,
    form: &str,
    bytes: &[u8],
    out: &mut Vec<u8>,
) -> Result<(), Fault>
where
    T::Primitive: PartialEq + Display,
{
    let mut buf = ParseBuf(bytes);
    let mut text = Vec::new(alloc);
    let raw = match buf.parse::<RawInt<T>>(alloc, ()) {
        Ok(raw) => raw,
        Err(fault) => {
            put_other_eaten(alloc, form, bytes, None, out)?;
            return put_read_error(form, bytes, fault, out);
        }
    };
    let value = *raw;
    done(write!(text, "{value}"))?;
    let mut changed = RawInt::<T>::new(value);
    *changed = *raw;
    if changed.0 != value {
        put_text("changed otherwise ", out)?;
    }
    put_other_eaten(alloc, form, bytes, Some((&text, buf.0)), out)?;
    out.extend_from_slice(&text)?;
    put_sizes::<T>(out)?;
    let taken = bytes.len().saturating_sub(buf.len());
    put_written(&written::<T>(alloc, value)?, &bytes[..taken], out)?;
    if read_back::<T>(alloc, value) != Ok(value) {
        put_text(" not read back", out)?;
    }
    put_rest(buf.0, out)
}

/// Appends the error of reading an integer.
fn put_read_error(
    form: &str,
    bytes: &[u8],
    fault: WireFault,
    out: &mut Vec<u8>,
) -> Result<(), Fault> {
    if form == "LenEnc" {
        put_other_lenenc(Err(fault), bytes, out)?;
    }
    done(write!(out, "{fault:?}"))
}

/// Writes the integer by the call of `BufMutExt` for the representation; None if there is none or the integer isn't one of its
/// type.
fn put_by_buf_mut(form: &str, value: i128, bytes: &mut Vec<u8>) -> Option<Result<(), WireFault>> {
    match form {
        "LenEnc" => Some(bytes.put_lenenc_int(u64::try_from(value).ok()?)),
        "LeU24" => Some(bytes.put_u24_le(u32::try_from(value).ok()?)),
        "LeI24" => Some(bytes.put_i24_le(i32::try_from(value).ok()?)),
        "LeU48" => Some(bytes.put_u48_le(u64::try_from(value).ok()?)),
        "LeU56" => Some(bytes.put_u56_le(u64::try_from(value).ok()?)),
        "LeI56" => Some(bytes.put_i56_le(i64::try_from(value).ok()?)),
        _ => None,
    }
}

/// Appends a remark if `BufMutExt` writes other bytes after two others, or returns another error.
fn put_other_put(
    alloc: Global,
    form: &str,
    value: i128,
    wanted: Result<&[u8], WireFault>,
    out: &mut Vec<u8>,
) -> Result<(), Fault> {
    let mut bytes = Vec::from_slice(alloc, b"ab")?;
    let Some(put) = put_by_buf_mut(form, value, &mut bytes) else {
        return Ok(());
    };
    let is_same = match wanted {
        Ok(wanted) => put == Ok(()) && bytes.get(2..) == Some(wanted),
        Err(fault) => put == Err(fault) && bytes.as_slice() == b"ab".as_slice(),
    };
    if is_same {
        return Ok(());
    }
    put_text(" otherwise by BufMutExt", out)
}

/// Appends a remark if a stream takes other bytes for a length-encoded integer, or if its length is another one.
fn put_other_stream(
    alloc: Global,
    value: u64,
    wanted: &[u8],
    out: &mut Vec<u8>,
) -> Result<(), Fault> {
    let len = wanted.len() as u64;
    let mut stream: Vec<u8> = Vec::from_slice(alloc, b"ab")?;
    if stream.write_lenenc_int(value) != Ok(len) || stream.get(2..) != Some(wanted) {
        put_text(" otherwise to a stream", out)?;
    }
    if lenenc_int_len(value) != len {
        put_text(" of another length", out)?;
    }
    Ok(())
}

/// Appends the bytes that are written for the integer, or the error; and what is read back, if it differs.
fn put_write<T: IntRepr>(
    alloc: Global,
    form: &str,
    number: i128,
    out: &mut Vec<u8>,
) -> Result<(), Fault>
where
    T::Primitive: PartialEq + Display + TryFrom<i128>,
    <T::Primitive as TryFrom<i128>>::Error: Drop,
{
    let Ok(value) = T::Primitive::try_from(number) else {
        return Err(Fault::NoCase);
    };
    match written::<T>(alloc, value) {
        Ok(bytes) => {
            put_bytes(&bytes, out)?;
            put_other_put(alloc, form, number, Ok(&bytes), out)?;
            if form == "LenEnc" {
                put_other_stream(alloc, number as u64, &bytes, out)?;
            }
        }
        Err(Fault::Wire(fault)) => {
            done(write!(out, "{fault:?}"))?;
            put_other_put(alloc, form, number, Err(fault), out)?;
        }
        Err(fault) => return Err(fault),
    }
    match read_back::<T>(alloc, value) {
        Ok(back) if back != value => done(write!(out, " read back as {back}")),
        _ => Ok(()),
    }
}

/// Appends the result of a task in this representation.
fn put_task<T: IntRepr>(
    alloc: Global,
    form: &str,
    task: Task<'_>,
    out: &mut Vec<u8>,
) -> Result<(), Fault>
where
    T::Primitive: PartialEq + Display + TryFrom<i128>,
    <T::Primitive as TryFrom<i128>>::Error: Drop,
{
    match task {
        Task::Read(bytes) => put_read::<T>(alloc, form, bytes, out),
        Task::Write(number) => put_write::<T>(alloc, form, number, out),
    }
}

/// Appends the result of a task in a little-endian representation.
fn put_little(alloc: Global, form: &str, task: Task<'_>, out: &mut Vec<u8>) -> Result<(), Fault> {
    match form {
        "LeU16" => put_task::<LeU16>(alloc, form, task, out),
        "LeI16" => put_task::<LeI16>(alloc, form, task, out),
        "LeU24" => put_task::<LeU24>(alloc, form, task, out),
        "LeI24" => put_task::<LeI24>(alloc, form, task, out),
        "LeU32" => put_task::<LeU32>(alloc, form, task, out),
        "LeI32" => put_task::<LeI32>(alloc, form, task, out),
        "LeU40" => put_task::<LeU40>(alloc, form, task, out),
        "LeI40" => put_task::<LeI40>(alloc, form, task, out),
        "LeU48" => put_task::<LeU48>(alloc, form, task, out),
        "LeI48" => put_task::<LeI48>(alloc, form, task, out),
        "LeU56" => put_task::<LeU56>(alloc, form, task, out),
        "LeI56" => put_task::<LeI56>(alloc, form, task, out),
        "LeU64" => put_task::<LeU64>(alloc, form, task, out),
        "LeI64" => put_task::<LeI64>(alloc, form, task, out),
        "LeU128" => put_task::<LeU128>(alloc, form, task, out),
        "LeI128" => put_task::<LeI128>(alloc, form, task, out),
        _ => Err(Fault::NoCase),
    }
}

/// Appends the result of a task in the representation with this name.
fn put_form(alloc: Global, form: &str, task: Task<'_>, out: &mut Vec<u8>) -> Result<(), Fault> {
    match form {
        "u8" => put_task::<u8>(alloc, form, task, out),
        "i8" => put_task::<i8>(alloc, form, task, out),
        "BeU16" => put_task::<BeU16>(alloc, form, task, out),
        "BeI16" => put_task::<BeI16>(alloc, form, task, out),
        "BeU24" => put_task::<BeU24>(alloc, form, task, out),
        "BeI24" => put_task::<BeI24>(alloc, form, task, out),
        "BeU32" => put_task::<BeU32>(alloc, form, task, out),
        "BeI32" => put_task::<BeI32>(alloc, form, task, out),
        "BeU40" => put_task::<BeU40>(alloc, form, task, out),
        "BeI40" => put_task::<BeI40>(alloc, form, task, out),
        "BeU48" => put_task::<BeU48>(alloc, form, task, out),
        "BeI48" => put_task::<BeI48>(alloc, form, task, out),
        "BeU56" => put_task::<BeU56>(alloc, form, task, out),
        "BeI56" => put_task::<BeI56>(alloc, form, task, out),
        "BeU64" => put_task::<BeU64>(alloc, form, task, out),
        "BeI64" => put_task::<BeI64>(alloc, form, task, out),
        "BeU128" => put_task::<BeU128>(alloc, form, task, out),
        "BeI128" => put_task::<BeI128>(alloc, form, task, out),
        "LeU32LowerHalf" => put_task::<LeU32LowerHalf>(alloc, form, task, out),
        "LeU32UpperHalf" => put_task::<LeU32UpperHalf>(alloc, form, task, out),
        "LenEnc" => put_task::<LenEnc>(alloc, form, task, out),
        "VarLen" => put_task::<VarLen>(alloc, form, task, out),
        _ => put_little(alloc, form, task, out),
    }
}

/// `int FORM BYTES`: the integer of this representation that the bytes begin with, by `RawInt`, `ParseBuf` and `ReadMysqlExt`,
/// with a remark for each that differs; what is written for it, if this differs; and the bytes after it, if there are any.
pub(crate) fn put_int(alloc: Global, arguments: &[&str], out: &mut Vec<u8>) -> Result<(), Fault> {
    let [form, bytes] = arguments else {
        return Err(Fault::NoCase);
    };
    let bytes = bytes_of(alloc, bytes)?;
    if *form == "LenEnc" {
        let read = ParseBuf(&bytes).parse::<RawInt<LenEnc>>(alloc, ());
        if let Ok(raw) = read {
            put_other_lenenc(Ok(*raw), &bytes, out)?;
        }
    }
    put_form(alloc, form, Task::Read(&bytes), out)
}

/// `write_int FORM NUMBER`: the bytes that are written for the integer, by `RawInt`, `BufMutExt` and `WriteMysqlExt`, with a
/// remark for each that differs; and what is read back from them, if it is another number.
pub(crate) fn put_written_int(
    alloc: Global,
    arguments: &[&str],
    out: &mut Vec<u8>,
) -> Result<(), Fault> {
    let [form, number] = arguments else {
        return Err(Fault::NoCase);
    };
    put_form(alloc, form, Task::Write(signed_of(number)?), out)
}

/// Appends a remark if the integer isn't written as these bytes, or if their count is another one.
fn put_other_varlen_uint(
    alloc: Global,
    value: u64,
    bytes: &[u8],
    out: &mut Vec<u8>,
) -> Result<(), Fault> {
    let mut written = Vec::new(alloc);
    write_varlen_uint(value, &mut written)?;
    put_written(&written, bytes, out)?;
    if varlen_uint_size(value) != written.len() {
        put_text(" of another size", out)?;
    }
    Ok(())
}

/// `varlen_uint BYTES`: the integer whose first byte says how many bytes it has, what is written for it, if this differs, and
/// the bytes after it, if there are any.
pub(crate) fn put_varlen_uint(
    alloc: Global,
    arguments: &[&str],
    out: &mut Vec<u8>,
) -> Result<(), Fault> {
    let [bytes] = arguments else {
        return Err(Fault::NoCase);
    };
    let bytes = bytes_of(alloc, bytes)?;
    let mut buf = ParseBuf(&bytes);
    let value = read_varlen_uint(&mut buf)?;
    put_number(value, out)?;
    let taken = bytes.len().saturating_sub(buf.len());
    put_other_varlen_uint(alloc, value, &bytes[..taken], out)?;
    put_rest(buf.0, out)
}
