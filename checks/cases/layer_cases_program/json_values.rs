//! JSON documents: the values in their bytes, each element and member by each call that reads it, and their trees.

use crate::words::{
    Fault, bytes_of, done, number_of, only_bytes_of, put_error, put_name, put_number, put_rest,
    put_text, put_type,
};
use feed_text::put_json;
use rows_errors::RowsError;
use rows_jsonb::{
    Array, ComplexValue, JsonDiffOperation, JsonbString, JsonbType, Large, LiteralType, Object,
    ObjectKey, OpaqueValue, Small, StorageFormat, Value,
};
use std::alloc::Global;
use std::borrow::CowSlice;
use std::fmt::Debug;
use std::io::Write;
use wire_buf::{MySerialize, ParseBuf};

/// Appends the elements of an array with `, ` between them; for an element that can't be read its error. The iterator must give
/// the same elements, and neither may give one more.
fn put_elements<T: StorageFormat>(
    alloc: Global,
    array: &ComplexValue<'_, T, Array>,
    out: &mut Vec<u8>,
) -> Result<(), Fault> {
    let mut elements = array.iter();
    for index in 0..array.element_count() {
        if index > 0 {
            put_text(", ", out)?;
        }
        let (element, next) = (array.elem_at(index), elements.next().transpose());
        if element != next {
            put_text("otherwise by iter ", out)?;
        }
        match element {
            Ok(Some(value)) => put_value(alloc, &value, out)?,
            Ok(None) => put_text("none", out)?,
            Err(fault) => put_error(Fault::Rows(fault), out)?,
        }
    }
    if array.elem_at(array.element_count()) != Ok(None) || elements.next().is_some() {
        put_text(" and more", out)?;
    }
    Ok(())
}

/// Appends a key between quotes, and its text if it differs. One that is made of the same bytes must equal it.
fn put_key(alloc: Global, key: &ObjectKey<'_>, out: &mut Vec<u8>) -> Result<(), Fault> {
    let made = ObjectKey::new(CowSlice::Borrowed(key.value_raw()));
    if made.value_raw() != key.value_raw() {
        put_text("made otherwise ", out)?;
    }
    let text = key.value(alloc)?;
    put_name(made.value_raw(), text, out)
}

/// Appends the member of an object that an iterator gives.
fn put_member(
    alloc: Global,
    member: Result<(ObjectKey<'_>, Value<'_>), RowsError>,
    out: &mut Vec<u8>,
) -> Result<(), Fault> {
    match member {
        Ok((key, value)) => {
            put_key(alloc, &key, out)?;
            put_text(": ", out)?;
            put_value(alloc, &value, out)
        }
        Err(fault) => put_error(Fault::Rows(fault), out),
    }
}

/// Whether a key is read by `key_at` and by an iterator of keys as the same one.
fn is_same_key(
    one: Result<Option<ObjectKey<'_>>, RowsError>,
    other: Result<Option<ObjectKey<'_>>, RowsError>,
) -> bool {
    match (one, other) {
        (Ok(Some(one)), Ok(Some(other))) => one.value_raw() == other.value_raw(),
        (Ok(None), Ok(None)) => true,
        (Err(one), Err(other)) => one == other,
        _ => false,
    }
}

/// Appends the key that is read alone, if it isn't the one that was appended last with its value.
fn put_other_key(
    alloc: Global,
    key: Result<Option<ObjectKey<'_>>, RowsError>,
    value: Result<Option<Value<'_>>, RowsError>,
    member: &[u8],
    out: &mut Vec<u8>,
) -> Result<(), Fault> {
    let mut text = Vec::new(alloc);
    match (key, value) {
        (Ok(Some(key)), Ok(Some(value))) => put_member(alloc, Ok((key, value)), &mut text)?,
        (Err(fault), _) | (_, Err(fault)) => put_error(Fault::Rows(fault), &mut text)?,
        _ => put_text("none", &mut text)?,
    }
    if text.as_slice() == member {
        return Ok(());
    }
    put_text(" otherwise alone ", out)?;
    Ok(out.extend_from_slice(&text)?)
}

/// Appends the members of an object with `, ` between them; for a member that can't be read its error. The keys and the values
/// alone must be the same ones, and there may be none after them.
fn put_members<T: StorageFormat>(
    alloc: Global,
    object: &ComplexValue<'_, T, Object>,
    out: &mut Vec<u8>,
) -> Result<(), Fault> {
    let (mut members, mut keys) = (object.iter(), object.keys());
    for index in 0..object.element_count() {
        if index > 0 {
            put_text(", ", out)?;
        }
        let mut text = Vec::new(alloc);
        match members.next() {
            Some(member) => put_member(alloc, member, &mut text)?,
            None => put_text("none", &mut text)?,
        }
        out.extend_from_slice(&text)?;
        put_other_key(
            alloc,
            object.key_at(index),
            object.elem_at(index),
            &text,
            out,
        )?;
        if !is_same_key(object.key_at(index), keys.next().transpose()) {
            put_text(" otherwise by keys", out)?;
        }
    }
    let count = object.element_count();
    let is_more = members.next().is_some() || keys.next().is_some();
    if is_more || !is_same_key(object.key_at(count), Ok(None)) {
        put_text(" and more", out)?;
    }
    Ok(())
}

/// Appends the name of a container, its number of elements, and its contents in brackets.
fn put_array<T: StorageFormat>(
    alloc: Global,
    name: &str,
    array: &ComplexValue<'_, T, Array>,
    out: &mut Vec<u8>,
) -> Result<(), Fault> {
    done(write!(out, "{name} {} (", array.element_count()))?;
    put_elements(alloc, array, out)?;
    Ok(out.push(b')')?)
}

/// The same of an object.
fn put_object<T: StorageFormat>(
    alloc: Global,
    name: &str,
    object: &ComplexValue<'_, T, Object>,
    out: &mut Vec<u8>,
) -> Result<(), Fault> {
    done(write!(out, "{name} {} (", object.element_count()))?;
    put_members(alloc, object, out)?;
    Ok(out.push(b')')?)
}

/// Appends a string between quotes, and its text if it differs; what is written for it must be read as the same one.
fn put_string(alloc: Global, string: &JsonbString<'_>, out: &mut Vec<u8>) -> Result<(), Fault> {
    let text = string.str(alloc)?;
    put_text("string ", out)?;
    put_name(string.str_raw(), text, out)?;
    let mut written = Vec::new(alloc);
    string.serialize(&mut written)?;
    let again = ParseBuf(&written).parse::<JsonbString<'_>>(alloc, ())?;
    if again != *string || *string != JsonbString::new(CowSlice::Borrowed(again.str_raw())) {
        put_text(" made otherwise", out)?;
    }
    if again.into_raw().as_slice() != string.str_raw() {
        put_text(" unwrapped otherwise", out)?;
    }
    Ok(())
}

/// Appends the type of an opaque value and its bytes between quotes, and their text if it differs.
fn put_opaque(alloc: Global, opaque: &OpaqueValue<'_>, out: &mut Vec<u8>) -> Result<(), Fault> {
    let bytes = opaque.data_raw();
    let made = OpaqueValue::new(opaque.value_type(), CowSlice::Borrowed(bytes));
    let text = opaque.data(alloc)?;
    put_text("opaque ", out)?;
    put_type(made.value_type(), out)?;
    out.push(b' ')?;
    put_name(made.data_raw(), text, out)?;
    if made.data_raw() != bytes || made.value_type() != opaque.value_type() {
        put_text(" made otherwise", out)?;
    }
    if made.into_data().as_slice() != bytes {
        put_text(" unwrapped otherwise", out)?;
    }
    Ok(())
}

/// Appends the name of a number's type, and the number.
fn put_scalar(alloc: Global, value: &Value<'_>, out: &mut Vec<u8>) -> Result<(), Fault> {
    match value {
        Value::Null => put_text("null", out),
        Value::Bool(it) => done(write!(out, "{it}")),
        Value::I16(it) => done(write!(out, "i16 {it}")),
        Value::U16(it) => done(write!(out, "u16 {it}")),
        Value::I32(it) => done(write!(out, "i32 {it}")),
        Value::U32(it) => done(write!(out, "u32 {it}")),
        Value::I64(it) => done(write!(out, "i64 {it}")),
        Value::U64(it) => done(write!(out, "u64 {it}")),
        Value::F64(it) => done(write!(out, "f64 {it:x}")),
        Value::String(it) => put_string(alloc, it, out),
        Value::Opaque(it) => put_opaque(alloc, it, out),
        _ => Err(Fault::NoCase),
    }
}

/// What the calls about the kind of a value must return for a value with this text.
fn has_kind(value: &Value<'_>, text: &[u8]) -> bool {
    let begins = |word: &str| text.starts_with(word.as_bytes());
    let is_container = begins("small_") || begins("large_");
    value.is_array() == (begins("small_array") || begins("large_array"))
        && value.is_object() == (begins("small_object") || begins("large_object"))
        && value.is_int() == begins("i")
        && value.is_uint() == begins("u")
        && value.is_double() == begins("f64")
        && value.element_count().is_some() == is_container
        && value.field_type().is_some() == begins("opaque")
}

/// Whether the value has the number of elements of its container, and the column type of its opaque value.
fn has_parts(value: &Value<'_>) -> bool {
    let (count, column_type) = (value.element_count(), value.field_type());
    match value {
        Value::SmallArray(it) => count == Some(it.element_count()),
        Value::LargeArray(it) => count == Some(it.element_count()),
        Value::SmallObject(it) => count == Some(it.element_count()),
        Value::LargeObject(it) => count == Some(it.element_count()),
        Value::Opaque(it) => column_type == Some(it.value_type()),
        _ => count.is_none() && column_type.is_none(),
    }
}

/// Appends the value: the name of its type and its contents.
pub(crate) fn put_value(alloc: Global, value: &Value<'_>, out: &mut Vec<u8>) -> Result<(), Fault> {
    let from = out.len();
    match value {
        Value::SmallArray(it) => put_array(alloc, "small_array", it, out)?,
        Value::LargeArray(it) => put_array(alloc, "large_array", it, out)?,
        Value::SmallObject(it) => put_object(alloc, "small_object", it, out)?,
        Value::LargeObject(it) => put_object(alloc, "large_object", it, out)?,
        _ => put_scalar(alloc, value, out)?,
    }
    if !has_kind(value, out.get(from..).unwrap_or(b"")) || !has_parts(value) {
        put_text(" of another kind", out)?;
    }
    Ok(())
}

/// Appends the text of a value's tree, built twice, or the error.
fn put_tree(alloc: Global, value: &Value<'_>, out: &mut Vec<u8>) -> Result<(), Fault> {
    put_text(" = ", out)?;
    let (tree, again) = (value.tree(alloc), value.tree(alloc));
    if tree != again {
        put_text("otherwise again ", out)?;
    }
    match tree {
        Ok(tree) => Ok(put_json(&tree, out)?),
        Err(fault) => put_error(Fault::Rows(fault), out),
    }
}

/// Appends the value and its tree, from its bytes and from owned ones, with a remark if these differ.
fn put_whole(alloc: Global, value: Value<'_>, out: &mut Vec<u8>) -> Result<(), Fault> {
    let mut text = Vec::new(alloc);
    put_value(alloc, &value, &mut text)?;
    put_tree(alloc, &value, &mut text)?;
    let owned = value.into_owned(alloc)?;
    let mut again = Vec::new(alloc);
    put_value(alloc, &owned, &mut again)?;
    put_tree(alloc, &owned, &mut again)?;
    out.extend_from_slice(&text)?;
    if again != text {
        put_text(" otherwise owned", out)?;
    }
    let mut parsed = Vec::new(alloc);
    match owned.parse(alloc) {
        Ok(tree) => put_json(&tree, &mut parsed)?,
        Err(fault) => put_error(Fault::Rows(fault), &mut parsed)?,
    }
    if !text.ends_with(&parsed) {
        put_text(" otherwise by parse", out)?;
    }
    Ok(())
}

/// `json_value BYTES`: the value that a document's bytes begin with: the name of its type, its contents, ` = ` and its tree;
/// and the bytes after it, if there are any. Its elements and members are read by each call; the owned value must be the same.
pub(crate) fn put_json_value(
    alloc: Global,
    arguments: &[&str],
    out: &mut Vec<u8>,
) -> Result<(), Fault> {
    let bytes = only_bytes_of(alloc, arguments)?;
    let (mut buf, mut again) = (ParseBuf(&bytes), ParseBuf(&bytes));
    let value = buf.parse::<Value<'_>>(alloc, ());
    let document = Value::read_document(&mut again);
    if value != document || (value.is_ok() && buf != again) {
        put_text("otherwise by read_document ", out)?;
    }
    put_whole(alloc, value?, out)?;
    put_rest(buf.0, out)
}

/// Appends the contents of the container of this kind that the bytes begin with; the owned one must be the same.
fn put_container(
    alloc: Global,
    kind: &str,
    buf: &mut ParseBuf<'_>,
    out: &mut Vec<u8>,
) -> Result<(), Fault> {
    let value = match kind {
        "small_array" => {
            Value::SmallArray(buf.parse::<ComplexValue<'_, Small, Array>>(alloc, ())?)
        }
        "large_array" => {
            Value::LargeArray(buf.parse::<ComplexValue<'_, Large, Array>>(alloc, ())?)
        }
        "small_object" => {
            Value::SmallObject(buf.parse::<ComplexValue<'_, Small, Object>>(alloc, ())?)
        }
        "large_object" => {
            Value::LargeObject(buf.parse::<ComplexValue<'_, Large, Object>>(alloc, ())?)
        }
        "string" => Value::String(buf.parse::<JsonbString<'_>>(alloc, ())?),
        _ => return Err(Fault::NoCase),
    };
    put_whole(alloc, value, out)
}

/// `json_container KIND BYTES`: the same of a container without its type byte: `small_array`, `large_array`, `small_object`,
/// `large_object`; and of a `string`.
pub(crate) fn put_json_container(
    alloc: Global,
    arguments: &[&str],
    out: &mut Vec<u8>,
) -> Result<(), Fault> {
    let [kind, bytes] = arguments else {
        return Err(Fault::NoCase);
    };
    let bytes = bytes_of(alloc, bytes)?;
    let mut buf = ParseBuf(&bytes);
    put_container(alloc, kind, &mut buf, out)?;
    put_rest(buf.0, out)
}

/// `count` nested small arrays, after a type byte; each but the innermost has the next as its only element.
fn nested(alloc: Global, count: usize) -> Result<Vec<u8>, Fault> {
    let mut bytes = Vec::from_slice(alloc, b"\x02")?;
    for index in 1..count {
        let size = 7 * (count - index) + 4;
        bytes.extend_from_slice(b"\x01\0")?;
        bytes.extend_from_slice(&(size as u16).to_le_bytes())?;
        bytes.extend_from_slice(b"\x02\x07\0")?;
    }
    bytes.extend_from_slice(b"\0\0\x04\0")?;
    Ok(bytes)
}

/// `nested_arrays COUNT`: the length of a document of so many nested arrays, and the number of `[` in the text of its tree, or
/// the error.
pub(crate) fn put_nested(
    alloc: Global,
    arguments: &[&str],
    out: &mut Vec<u8>,
) -> Result<(), Fault> {
    let [count] = arguments else {
        return Err(Fault::NoCase);
    };
    let bytes = nested(alloc, number_of(count)? as usize)?;
    put_number(bytes.len() as u64, out)?;
    out.push(b' ')?;
    let tree = ParseBuf(&bytes).parse::<Value<'_>>(alloc, ())?.parse(alloc);
    let mut text = Vec::new(alloc);
    match tree {
        Ok(tree) => put_json(&tree, &mut text)?,
        Err(fault) => return put_error(Fault::Rows(fault), out),
    }
    let brackets = text.iter().filter(|byte| **byte == b'[').count();
    put_number(brackets as u64, out)
}

/// Appends the name of a constant with this number, or the text of the error; returns whether there is such a constant.
fn put_code<C: Debug, E>(
    number: u8,
    found: Result<C, E>,
    code: fn(&C) -> u8,
    out: &mut Vec<u8>,
) -> Result<bool, Fault>
where
    u8: From<E>,
    C: Copy,
{
    match found {
        Ok(found) => {
            done(write!(out, "{found:?}"))?;
            if code(&found) != number {
                put_text(" of another number", out)?;
            }
            Ok(true)
        }
        Err(unknown) => {
            done(write!(out, "unknown {}", u8::from(unknown)))?;
            Ok(false)
        }
    }
}

/// Appends the constant of a document's format with this number; returns whether there is one.
pub(crate) fn put_constant(kind: &str, number: u8, out: &mut Vec<u8>) -> Result<bool, Fault> {
    match kind {
        "JsonbType" => put_code(number, JsonbType::try_from(number), |it| *it as u8, out),
        "LiteralType" => put_code(number, LiteralType::try_from(number), |it| *it as u8, out),
        "JsonDiffOperation" => {
            put_code(
                number,
                JsonDiffOperation::try_from(number),
                |it| *it as u8,
                out,
            )
        }
        _ => Err(Fault::NoCase),
    }
}
