//! JSON diffs: one, and several in sequence.

use crate::json_values::put_value;
use crate::words::{Fault, done, only_bytes_of, put_name, put_rest, put_text};
use rows_jsonb::{JsonDiff, check_json_diffs, json_diffs};
use std::alloc::Global;
use std::io::Write;
use wire_buf::ParseBuf;

/// Appends the operation of a diff, its path between quotes, and its value, if it has one.
fn put_diff(alloc: Global, diff: &JsonDiff<'_>, out: &mut Vec<u8>) -> Result<(), Fault> {
    let path = diff.path_str(alloc)?;
    done(write!(out, "{:?} ", diff.operation()))?;
    put_name(diff.path(), path, out)?;
    match diff.value() {
        Some(value) => {
            out.push(b' ')?;
            put_value(alloc, value, out)
        }
        None => Ok(()),
    }
}

/// Appends a diff, and a remark if the owned one differs.
fn put_whole(alloc: Global, diff: JsonDiff<'_>, out: &mut Vec<u8>) -> Result<(), Fault> {
    let (mut text, mut again) = (Vec::new(alloc), Vec::new(alloc));
    put_diff(alloc, &diff, &mut text)?;
    let owned = diff.into_owned(alloc)?;
    put_diff(alloc, &owned, &mut again)?;
    out.extend_from_slice(&text)?;
    if again != text {
        put_text(" otherwise owned", out)?;
    }
    Ok(())
}

/// `json_diff BYTES`: the diff that the bytes begin with, by `JsonDiff` as a field and by `split_diff`, and the bytes after it,
/// if there are any.
pub(crate) fn put_json_diff(
    alloc: Global,
    arguments: &[&str],
    out: &mut Vec<u8>,
) -> Result<(), Fault> {
    let bytes = only_bytes_of(alloc, arguments)?;
    let mut buf = ParseBuf(&bytes);
    let diff = buf.parse::<JsonDiff<'_>>(alloc, ());
    let is_same = match (JsonDiff::split_diff(&bytes), &diff) {
        (Ok((split, rest)), Ok(diff)) => split == *diff && rest == buf.0,
        (Err(fault), Err(same)) => fault == *same,
        _ => false,
    };
    if !is_same {
        put_text("otherwise by split_diff ", out)?;
    }
    put_whole(alloc, diff?, out)?;
    put_rest(buf.0, out)
}

/// `json_diffs BYTES`: the diffs in sequence up to the end, with `, ` between them; `check_json_diffs` must return the same
/// error.
pub(crate) fn put_json_diffs(
    alloc: Global,
    arguments: &[&str],
    out: &mut Vec<u8>,
) -> Result<(), Fault> {
    let bytes = only_bytes_of(alloc, arguments)?;
    let diffs = json_diffs(alloc, &bytes);
    let is_same = match (check_json_diffs(&bytes), &diffs) {
        (Ok(()), Ok(_)) => true,
        (Err(fault), Err(same)) => fault == *same,
        _ => false,
    };
    if !is_same {
        put_text("otherwise by check_json_diffs ", out)?;
    }
    let mut is_first = true;
    for diff in diffs? {
        if !is_first {
            put_text(", ", out)?;
        }
        put_whole(alloc, diff, out)?;
        is_first = false;
    }
    Ok(())
}
