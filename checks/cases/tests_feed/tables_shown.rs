//! Tables as JSON lines show them, by the optional metadata of their table maps, and the tables so far.

use changes_tables::{Shown, ShownColumn, ShownTable, ShownTables, TableOptions};
use rows_errors::RowsError;
use rows_table_map::TableMapEvent;
use std::alloc::{AllocError, Global};
use wire_buf::ParseBuf;

/// A table map: table id 7 is `d`.`t`. Its columns are `id` BIGINT UNSIGNED, `name` VARCHAR in utf8mb4, `kind` ENUM('a', 'b"') and
/// `flags` SET('x', 'ß') in latin1, and `note` BLOB; the primary key is (`name`, `id`).
const NAMED: &[u8] =
    b"\x07\0\0\0\0\0\x01\0\x01d\0\x01t\0\x05\x08\x0f\xfe\xfe\xfc\x07\x28\0\xf7\x01\xf8\x01\x02\0\
    \x01\x01\x80\x02\x05\xfc\xff\0\x01\x3f\x04\x18\x02id\x04name\x04kind\x05flags\x04note\x05\x05\x02\x01x\x01\xdf\
    \x06\x06\x02\x01a\x02b\"\x08\x02\x01\0\x0a\x01\x08";

/// A table map without optional metadata: `d`.`\xff` has an INT and a TEXT.
const BARE: &[u8] = b"\x08\0\0\0\0\0\x01\0\x01d\0\x01\xff\0\x02\x03\xfc\x01\x02\0";

/// A letter for how a column is shown.
fn letter(shown: Shown) -> u8 {
    match shown {
        Shown::Plain => b'p',
        Shown::Quoted => b'q',
        Shown::Text(_) => b't',
        Shown::Binary => b'b',
        Shown::Unknown => b'u',
        Shown::Timestamp => b's',
        Shown::Bit => b'n',
        Shown::Enum => b'e',
        Shown::Set => b'm',
    }
}

/// Appends a column: its key, how it is shown, and its members.
fn put_column(column: &ShownColumn, text: &mut Vec<u8>) -> Result<(), AllocError> {
    text.extend_from_slice(&column.key)?;
    text.push(letter(column.shown))?;
    for member in &column.members {
        text.push(b' ')?;
        text.extend_from_slice(member)?;
    }
    text.push(b'\n')?;
    Ok(())
}

/// Whether a table is shown so.
fn is_shown(alloc: Global, table: &ShownTable, wanted: &[u8]) -> Result<bool, AllocError> {
    let mut text = Vec::new(alloc);
    for column in &table.columns {
        put_column(column, &mut text)?;
    }
    text.extend_from_slice(&table.names)?;
    text.push(b'\n')?;
    text.extend_from_slice(&table.key)?;
    Ok(text.as_slice() == wanted)
}

/// Selects the table of these bytes, or adds it; returns whether it was there.
fn take(alloc: Global, tables: &mut ShownTables, bytes: &[u8]) -> Result<bool, RowsError> {
    if tables.select(bytes) {
        return Ok(true);
    }
    let map = ParseBuf(bytes).parse::<TableMapEvent<'_>>(alloc, 8)?;
    tables.add(&map, bytes)?;
    Ok(false)
}

/// Whether the newest table is shown so.
fn is_newest(alloc: Global, tables: &ShownTables, wanted: &[u8]) -> Result<bool, AllocError> {
    match tables.newest() {
        Some(table) => is_shown(alloc, table, wanted),
        None => Ok(false),
    }
}

/// The table of the first table map.
const NAMED_TABLE: &[u8] =
    b"\"id\":q\n\"name\":t\n\"kind\":e \"a\" \"b\\\"\"\n\"flags\":m \"x\" \"\xc3\x9f\"\n\"note\":b\n\
    \"database\":\"d\",\"table\":\"t\"\n\"primary_key\":[\"name\",\"id\"]";

/// The table of the second table map.
const BARE_TABLE: &[u8] =
    b"\"@0\":p\n\"@1\":u\n\"database\":\"d\",\"table\":{\"base64\":\"/w==\"}\n";

/// Whether the tables are added once and found again.
fn are_found(alloc: Global) -> Result<bool, RowsError> {
    let mut tables = ShownTables::new(
        alloc,
        TableOptions {
            unnamed: Shown::Unknown,
            quotes_numbers: true,
        },
    );
    let is_empty = tables.newest().is_none();
    let first = !take(alloc, &mut tables, NAMED)? && is_newest(alloc, &tables, NAMED_TABLE)?;
    let lacks_nothing = !tables.lacks().signs && !tables.lacks().character_sets;
    let second = !take(alloc, &mut tables, BARE)? && is_newest(alloc, &tables, BARE_TABLE)?;
    let lacks_both = tables.lacks().signs && tables.lacks().character_sets;
    let again = take(alloc, &mut tables, NAMED)? && is_newest(alloc, &tables, NAMED_TABLE)?;
    let last = take(alloc, &mut tables, BARE)? && is_newest(alloc, &tables, BARE_TABLE)?;
    Ok(is_empty && first && lacks_nothing && second && lacks_both && again && last)
}

#[test]
fn tables_shown(rt: HostRuntime) {
    assert!(rt; are_found(rt.alloc()) == Ok(true));
}
