//! Fields that hold constants and flags, that never change, and that are bytes without a length.

ghost use Rattle.std.specs.Prelude.{[], ◌∷◌};

use crate::wire_words::{len_of, name_and_argument};
use crate::words::{Fault, bytes_of, done, put_bytes, put_number, put_rest, put_text, put_written};
use std::alloc::Global;
use std::fmt::Debug;
use std::io::Write;
use wire_buf::{AnySize, FixedSize, MyDeserialize, MySerialize, ParseBuf, WireSize};
use wire_constants::{ColumnFlags, ColumnType, Constant, GeometryType};
use wire_fields::{
    BareU8Bytes, BytesRepr, FixedLengthText, IntRepr, LeU16, LeU24, RawBytes, RawConst, RawFlags,
    RawInt, Skip,
};
use wire_fields_extra::{
    Const, ConstBytes, ConstBytesValue, ConstU8, ConstU32, Either, ItemResult, SeqRepr, Unknown,
};

/// The first bytes of a binlog file.
#[derive(Drop)]
struct Magic;

impl ConstBytesValue<4> for Magic {
    ghost bytes = { 254 ∷ 98 ∷ 105 ∷ 110 ∷ [] };

    fn value<'a>() -> &'a [u8] {
        &[254, 98, 105, 110]
    }
}

/// Appends a remark if the constant `SIZE` of a field isn't the one of its type `Size`.
fn put_sizes<'de, V: MyDeserialize<'de>>(out: &mut Vec<u8>) -> Result<(), Fault> {
    if V::SIZE == <V::Size as WireSize>::SIZE {
        return Ok(());
    }
    put_text(" of another size", out)
}

/// Appends what is written for a value, if it isn't the bytes that were read, and the bytes after those, if there are any.
fn put_end<V: MySerialize>(
    alloc: Global,
    value: &V,
    bytes: &[u8],
    rest: &[u8],
    out: &mut Vec<u8>,
) -> Result<(), Fault> {
    let mut written = Vec::new(alloc);
    value.serialize(&mut written)?;
    put_written(
        &written,
        &bytes[..bytes.len().saturating_sub(rest.len())],
        out,
    )?;
    put_rest(rest, out)
}

/// Appends the name of the constant that the bytes begin with. A field that is changed to it must equal it.
fn put_constant<T: Constant<U::Primitive> + Debug + PartialEq, U: IntRepr>(
    alloc: Global,
    first: T,
    bytes: &[u8],
    out: &mut Vec<u8>,
) -> Result<(), Fault>
where
    T::Error: Drop,
{
    let mut buf = ParseBuf(bytes);
    let value = buf.parse::<Const<T, U>>(alloc, ())?;
    let mut changed = Const::<T, U>::new(first);
    *changed = *value;
    done(write!(out, "{:?}", *value))?;
    if !(changed == value) || !(Const::<T, U>::new(*value) == value) {
        put_text(" made otherwise", out)?;
    }
    put_sizes::<Const<T, U>>(out)?;
    put_end(alloc, &value, bytes, buf.0, out)
}

/// Appends the number that the bytes begin with, and the constant that has it, or the text of the error. A field that is
/// changed to it must equal it.
fn put_raw_constant(alloc: Global, bytes: &[u8], out: &mut Vec<u8>) -> Result<(), Fault> {
    let mut buf = ParseBuf(bytes);
    let raw = buf.parse::<RawConst<u8, ColumnType>>(alloc, ())?;
    let mut changed = RawConst::<u8, ColumnType>::new(0);
    *changed = *raw;
    put_number(u64::from(*raw), out)?;
    match raw.get() {
        Ok(constant) => done(write!(out, " {constant:?}"))?,
        Err(unknown) => done(write!(out, " {unknown}"))?,
    }
    if !(changed == raw) || !(RawConst::new(*raw) == raw) {
        put_text(" made otherwise", out)?;
    }
    put_sizes::<RawConst<u8, ColumnType>>(out)?;
    put_end(alloc, &raw, bytes, buf.0, out)
}

/// Appends all bits that the bytes begin with, and the known ones, if others are set too.
fn put_flags(alloc: Global, bytes: &[u8], out: &mut Vec<u8>) -> Result<(), Fault> {
    let mut buf = ParseBuf(bytes);
    let raw = buf.parse::<RawFlags<ColumnFlags, LeU16>>(alloc, ())?;
    put_number(u64::from(raw.0), out)?;
    let known = u16::from(raw.get());
    if known != raw.0 {
        put_text(" known ", out)?;
        put_number(u64::from(known), out)?;
    }
    if RawFlags::<ColumnFlags, LeU16>::new(raw.0).0 != raw.0 {
        put_text(" made otherwise", out)?;
    }
    put_sizes::<RawFlags<ColumnFlags, LeU16>>(out)?;
    put_end(alloc, &raw, bytes, buf.0, out)
}

/// Appends an integer that is changed after it was read, as it is written.
fn put_changed(alloc: Global, bytes: &[u8], out: &mut Vec<u8>) -> Result<(), Fault> {
    let mut buf = ParseBuf(bytes);
    let mut raw = buf.parse::<RawInt<LeU16>>(alloc, ())?;
    let number = *raw;
    *raw = number.wrapping_add(1);
    let mut written = Vec::new(alloc);
    raw.serialize(&mut written)?;
    put_bytes(&written, out)?;
    put_rest(buf.0, out)
}

/// Appends ` is there` for a field that never changes. One that is made must equal it.
fn put_fixed<'de, V: MyDeserialize<'de, Ctx = ()> + MySerialize + PartialEq + Drop>(
    alloc: Global,
    made: V,
    bytes: &'de [u8],
    out: &mut Vec<u8>,
) -> Result<(), Fault>
where
    Fault: From<V::Fault>,
{
    let mut buf = ParseBuf(bytes);
    let value = buf.parse::<V>(alloc, ())?;
    put_text("is there", out)?;
    if !(value == made) {
        put_text(" made otherwise", out)?;
    }
    put_sizes::<V>(out)?;
    put_end(alloc, &value, bytes, buf.0, out)
}

/// Appends the bytes of a field that is an array.
fn put_array(alloc: Global, bytes: &[u8], out: &mut Vec<u8>) -> Result<(), Fault> {
    let mut buf = ParseBuf(bytes);
    let array = buf.parse::<[u8; 2]>(alloc, ());
    if array.is_err() && buf.0 != bytes {
        put_text("taken ", out)?;
    }
    let array = array?;
    if ParseBuf(bytes).parse_unchecked::<[u8; 2]>(alloc, ()) != Ok(array) {
        put_text("otherwise by parse_unchecked ", out)?;
    }
    put_bytes(&array, out)?;
    put_sizes::<[u8; 2]>(out)?;
    put_end(alloc, &array, bytes, buf.0, out)
}

/// Appends the bytes of a field of this length, as a slice and as a buffer.
fn put_slice(alloc: Global, len: usize, bytes: &[u8], out: &mut Vec<u8>) -> Result<(), Fault> {
    let (mut buf, mut again) = (ParseBuf(bytes), ParseBuf(bytes));
    let slice = buf.parse::<&[u8]>(alloc, len);
    let part = again.parse::<ParseBuf<'_>>(alloc, len);
    if part.map(|part| part.0) != slice || again != buf {
        put_text("otherwise as a buffer ", out)?;
    }
    if slice.is_err() && buf.0 != bytes {
        put_text("taken ", out)?;
    }
    let slice = slice?;
    put_bytes(slice, out)?;
    put_sizes::<&[u8]>(out)?;
    put_sizes::<ParseBuf<'_>>(out)?;
    put_end(alloc, &slice, bytes, buf.0, out)
}

/// A number on the left, or bytes on the right.
type Side<'a> = Either<RawInt<LeU16>, RawBytes<'a, BareU8Bytes>>;

/// Appends the number or the bytes of a field that has one of two formats.
fn put_side(
    alloc: Global,
    side: Either<(), usize>,
    bytes: &[u8],
    out: &mut Vec<u8>,
) -> Result<(), Fault> {
    let mut buf = ParseBuf(bytes);
    let is_left = matches!(side, Either::Left(_));
    let value = Side::deserialize(alloc, side, &mut buf)?;
    let mut end = Vec::new(alloc);
    put_end(alloc, &value, bytes, buf.0, &mut end)?;
    if is_left {
        put_number(u64::from(value.unwrap_left().0), out)?;
    } else {
        put_bytes(value.unwrap_right().as_bytes(), out)?;
    }
    Ok(out.extend_from_slice(&end)?)
}

/// `field NAME BYTES`: the field of this type that the bytes begin with, what is written for it, if this differs, and the bytes
/// after it, if there are any. The length of a slice, or of the bytes on the right, is after a `:`.
pub(crate) fn put_field(alloc: Global, arguments: &[&str], out: &mut Vec<u8>) -> Result<(), Fault> {
    let [word, bytes] = arguments else {
        return Err(Fault::NoCase);
    };
    let (name, len) = name_and_argument(word);
    let bytes = bytes_of(alloc, bytes)?;
    match name {
        "ColumnType" => {
            put_constant::<_, u8>(alloc, ColumnType::MYSQL_TYPE_DECIMAL, &bytes, out)
        }
        "GeometryType" => { put_constant::<_, u8>(alloc, GeometryType::GEOM_GEOMETRY, &bytes, out) }
        "ItemResult" => put_constant::<_, i8>(alloc, ItemResult::STRING_RESULT, &bytes, out),
        "RawColumnType" => put_raw_constant(alloc, &bytes, out),
        "ColumnFlags" => put_flags(alloc, &bytes, out),
        "ConstBytes" => put_fixed(alloc, ConstBytes::<Magic, 4>::new(), &bytes, out),
        "ConstU8" => put_fixed(alloc, ConstU8::<Magic, 7>::new(), &bytes, out),
        "ConstU32" => put_fixed(alloc, ConstU32::<Magic, 0x0403_0201>::new(), &bytes, out),
        "Skip" => put_fixed(alloc, Skip::<3>, &bytes, out),
        "array" => put_array(alloc, &bytes, out),
        "slice" => put_slice(alloc, len_of(len)?, &bytes, out),
        "changed" => put_changed(alloc, &bytes, out),
        "left" => put_side(alloc, Either::Left(()), &bytes, out),
        "right" => put_side(alloc, Either::Right(len_of(len)?), &bytes, out),
        _ => Err(Fault::NoCase),
    }
}

/// Appends a number of bytes, or `any`.
fn put_size(size: Option<usize>, out: &mut Vec<u8>) -> Result<(), Fault> {
    match size {
        Some(size) => put_number(size as u64, out),
        None => put_text("any", out),
    }
}

/// Appends the size of a field, and a remark if both of its constants differ.
fn put_size_of<'de, V: MyDeserialize<'de>>(out: &mut Vec<u8>) -> Result<(), Fault> {
    put_size(V::SIZE, out)?;
    put_sizes::<V>(out)
}

/// `size NAME`: the number of bytes of a type's values, or `any`; the largest count of a sequence; the value of a constant
/// field.
pub(crate) fn put_named_size(arguments: &[&str], out: &mut Vec<u8>) -> Result<(), Fault> {
    match arguments {
        ["FixedSize3"] => put_size(<FixedSize<3> as WireSize>::SIZE, out),
        ["AnySize"] => put_size(<AnySize as WireSize>::SIZE, out),
        ["FixedLengthText4"] => put_size(<FixedLengthText<4> as BytesRepr>::SIZE, out),
        ["array4"] => put_size_of::<[u8; 4]>(out),
        ["slice"] => put_size_of::<&[u8]>(out),
        ["ParseBuf"] => put_size_of::<ParseBuf<'_>>(out),
        ["RawConstLeU16"] => put_size_of::<RawConst<LeU16, ColumnType>>(out),
        ["count_u8"] => put_number(<u8 as SeqRepr>::MAX_LEN as u64, out),
        ["count_LeU24"] => put_number(<LeU24 as SeqRepr>::MAX_LEN as u64, out),
        ["count_Unknown"] => put_number(<Unknown as SeqRepr>::MAX_LEN as u64, out),
        ["value_ConstU8"] => put_number(u64::from(ConstU8::<Magic, 7>::new().value()), out),
        _ => Err(Fault::NoCase),
    }
}
