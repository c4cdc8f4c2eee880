//! Cells within JSON lines, by their columns.

use changes_cells::{FIELD_LEN_MAX, put_field, put_short_field};
use changes_character_sets::CharacterSet;
use changes_tables::{Shown, ShownColumn};
use feed_text::TextBuffer;
use rows_cells::{CellFormat, ImageField, Width};
use rows_errors::RowsError;
use std::alloc::Global;

/// A column with two members.
fn column(alloc: Global, shown: Shown) -> ShownColumn {
    let mut members = Vec::new(alloc);
    for name in [b"\"a\"", b"\"b\""] {
        if let Ok(name) = Vec::from_slice(alloc, name) {
            let _ = members.push(name);
        }
    }
    ShownColumn::new(Vec::new(alloc), shown, members)
}

/// The description of a cell.
fn field(format: CellFormat, bytes: &[u8]) -> ImageField<'_> {
    ImageField {
        column: 0,
        is_null: false,
        format,
        bytes,
    }
}

/// Whether a cell is appended as this text, and a byte remains; and whether it is written at an offset, if it is short.
fn is_shown(
    alloc: Global,
    shown: Shown,
    format: CellFormat,
    bytes: &[u8],
    text: &[u8],
    is_short: bool,
) -> bool {
    let column = column(alloc, shown);
    let mut out = TextBuffer::new(alloc);
    let appended = matches!(
        put_field(alloc, &column, field(format, bytes), &mut out),
        Ok([b'.'])
    );
    let mut short = [0; FIELD_LEN_MAX];
    let written = match put_short_field(&mut short, 0, &column, field(format, bytes)) {
        Some((end, rest)) => short.get(..end) == Some(text) && rest == b".".as_slice(),
        None => !is_short,
    };
    appended && out.as_slice() == text && written
}

/// Whether a cell gives this error.
fn fails(alloc: Global, format: CellFormat, bytes: &[u8], error: RowsError) -> bool {
    let column = column(alloc, Shown::Plain);
    let mut out = TextBuffer::new(alloc);
    let mut short = [0; FIELD_LEN_MAX];
    put_short_field(&mut short, 0, &column, field(format, bytes)).is_none()
        && put_field(alloc, &column, field(format, bytes), &mut out) == Err(error)
}

/// Numbers.
fn are_numbers(alloc: Global) -> bool {
    let number = CellFormat::Signed(Width::Four);
    let long = CellFormat::Unsigned(Width::Eight);
    let few = CellFormat::Unsigned(Width::One);
    is_shown(
        alloc,
        Shown::Plain,
        number,
        b"\xfb\xff\xff\xff.",
        b"-5",
        true,
    ) && is_shown(
        alloc,
        Shown::Quoted,
        number,
        b"\xfb\xff\xff\xff.",
        b"\"-5\"",
        true,
    ) && is_shown(
        alloc,
        Shown::Quoted,
        long,
        b"\xff\xff\xff\xff\xff\xff\xff\xff.",
        b"\"18446744073709551615\"",
        true,
    ) && is_shown(
        alloc,
        Shown::Timestamp,
        CellFormat::Unsigned(Width::Four),
        b"\x00\x00\x00\x80.",
        b"\"2038-01-19 03:14:08\"",
        true,
    ) && is_shown(alloc, Shown::Enum, few, b"\x02.", b"\"b\"", true)
        && is_shown(alloc, Shown::Enum, few, b"\x03.", b"3", true)
        && is_shown(alloc, Shown::Enum, few, b"\x00.", b"0", true)
        && is_shown(
            alloc,
            Shown::Plain,
            CellFormat::Year,
            b"\x7e.",
            b"2026",
            true,
        )
        && is_shown(alloc, Shown::Plain, CellFormat::Year, b"\x00.", b"0", true)
        && is_shown(
            alloc,
            Shown::Plain,
            CellFormat::Double,
            b"\x00\x00\x00\x00\x00\x00\xf8\x3f.",
            b"1.5",
            true,
        )
        && is_shown(
            alloc,
            Shown::Plain,
            CellFormat::Decimal(3, 2),
            b"\x812.",
            b"\"1.50\"",
            true,
        )
}

/// Dates and times.
fn are_times(alloc: Global) -> bool {
    let shown = Shown::Plain;
    is_shown(
        alloc,
        shown,
        CellFormat::NewDate,
        b"\x7c\xd5\x0f.",
        b"\"2026-11-28\"",
        true,
    ) && is_shown(
        alloc,
        shown,
        CellFormat::Datetime2(6),
        b"\x99\xbbx\xa0\x00\x01\xe2@.",
        b"\"2026-11-28 10:00:00.123456\"",
        true,
    ) && is_shown(
        alloc,
        shown,
        CellFormat::Datetime2(3),
        b"\x99\xbbx\xa0\x00\x04\xd2.",
        b"\"2026-11-28 10:00:00.123400\"",
        true,
    ) && is_shown(
        alloc,
        shown,
        CellFormat::Datetime2(3),
        b"\x99\xbbx\xa0\x00\x04\xce.",
        b"\"2026-11-28 10:00:00.123\"",
        true,
    ) && is_shown(
        alloc,
        shown,
        CellFormat::Time2(0),
        b"\x7f\x40\x00.",
        b"\"-12:00:00\"",
        true,
    ) && is_shown(
        alloc,
        shown,
        CellFormat::Timestamp2(0),
        b"\x80\x00\x00\x00.",
        b"\"2038-01-19 03:14:08\"",
        true,
    ) && is_shown(
        alloc,
        shown,
        CellFormat::Timestamp2(2),
        b"\x00\x00\x00\x00\x00.",
        b"\"0000-00-00 00:00:00.00\"",
        true,
    ) && is_shown(
        alloc,
        shown,
        CellFormat::Timestamp2(2),
        b"\x00\x00\x00\x00\x01.",
        b"\"1970-01-01 00:00:00.01\"",
        true,
    )
}

/// Bytes.
fn are_bytes(alloc: Global) -> bool {
    let utf8 = Shown::Text(CharacterSet::Utf8);
    let one = CellFormat::Counted(Width::One);
    is_shown(
        alloc,
        utf8,
        one,
        b"\x04a\"\xc3\xa9.",
        b"\"a\\\"\xc3\xa9\"",
        true,
    ) && is_shown(
        alloc,
        utf8,
        one,
        b"\x01\xff.",
        b"{\"base64\":\"/w==\"}",
        true,
    ) && is_shown(
        alloc,
        Shown::Text(CharacterSet::Utf16),
        one,
        b"\x04\x00\xe9\x00x.",
        b"\"\xc3\xa9x\"",
        true,
    ) && is_shown(
        alloc,
        Shown::Text(CharacterSet::Ascii),
        one,
        b"\x01\xe9.",
        b"{\"base64\":\"6Q==\"}",
        true,
    ) && is_shown(alloc, Shown::Binary, one, b"\x02hi.", b"\"aGk=\"", true)
        && is_shown(
            alloc,
            Shown::Unknown,
            one,
            b"\x02hi.",
            b"{\"base64\":\"aGk=\"}",
            true,
        )
        && is_shown(
            alloc,
            Shown::Bit,
            CellFormat::Plain(2),
            b"\x01\x02.",
            b"258",
            true,
        )
        && is_shown(
            alloc,
            Shown::Set,
            CellFormat::Plain(1),
            b"\x05.",
            b"[\"a\",4]",
            false,
        )
        && is_shown(
            alloc,
            Shown::Set,
            CellFormat::Plain(1),
            b"\x00.",
            b"[]",
            false,
        )
        && is_shown(
            alloc,
            Shown::Plain,
            CellFormat::Json,
            b"\x02\x00\x00\x00\x04\x01.",
            b"true",
            false,
        )
        && is_shown(
            alloc,
            Shown::Plain,
            CellFormat::JsonDiffs,
            b"\x05\x00\x00\x00\x02\x03$.b.",
            b"{\"diffs\":[{\"op\":\"remove\",\"path\":\"$.b\"}]}",
            false,
        )
}

#[test]
fn json_cells(rt: HostRuntime) {
    let alloc = rt.alloc();
    assert!(rt; are_numbers(alloc));
    assert!(rt; are_times(alloc));
    assert!(rt; are_bytes(alloc));
    assert!(rt;
        fails(
            alloc,
            CellFormat::Counted(Width::One),
            b"\x02a",
            RowsError::EndOfBody
        )
    );
    assert!(rt; fails(alloc, CellFormat::NoMetadata, b"", RowsError::Metadata));
    assert!(rt;
        fails(
            alloc,
            CellFormat::Decimal(3, 2),
            b"\x8b2",
            RowsError::Decimal
        )
    );
}
