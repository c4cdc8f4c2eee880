//! The transactions of a log as values, how its reading ended, and what filters take.

use crate::words::{Fault, bytes_of, done, number_of, put_number, put_text};
use crc32::crc32;
use events_frames::QueryTexts;
use feed_change_log::{
    Change, ChangeLog, CommittedTransaction, Filter, OwnedTransaction, Stop, TableRows, What,
};
use feed_checks::{Gtid, Verdict};
use feed_text::{put_cell_ref, quote};
use rows_cells::RowPart;
use std::alloc::Global;
use std::io::{self, ErrorKind, Read, Write};
use wire_buf::Watched;

/// A reader that ends or fails after its bytes.
#[derive(Drop)]
struct Bytes<'a> {
    left: &'a [u8],
    fails: bool,
}

impl Read for Bytes<'_> {
    fn read(&mut self, buf: &mut [u8]) -> io::Result<usize> {
        if self.left.is_empty() && self.fails {
            return Err(io::Error::from(ErrorKind::Other));
        }
        self.left.read(buf)
    }
}

/// Appends a GTID: `none` if there is no event of one, `-` if it is anonymous.
fn put_gtid(gtid: Option<Gtid<'_>>, out: &mut Vec<u8>) -> Result<(), Fault> {
    match gtid {
        None => put_text("none", out),
        Some(Gtid::Anonymous) => put_text("-", out),
        Some(Gtid::Numbered { uuid, number }) => {
            for byte in uuid {
                done(write!(out, "{byte:02x}"))?;
            }
            done(write!(out, ":{number}"))
        }
        Some(Gtid::Tagged(body)) => {
            put_text("tagged ", out)?;
            Ok(quote(body, out)?)
        }
    }
}

/// Appends the cells of rows: ` to` between the images of a row, and `;` after it.
fn put_cells(alloc: Global, rows: TableRows<'_>, out: &mut Vec<u8>) -> Result<(), Fault> {
    let mut cursor = rows.cursor();
    while let Some(part) = cursor.next_part()? {
        match part {
            RowPart::Cell(column, cell) => put_cell_ref(alloc, column, cell, out)?,
            RowPart::NextImage => put_text(" to", out)?,
            RowPart::EndOfRow => out.push(b';')?,
        }
    }
    Ok(())
}

/// Appends the images of rows, their table, and their cells. The table map must name the same table.
fn put_rows(alloc: Global, rows: TableRows<'_>, out: &mut Vec<u8>) -> Result<(), Fault> {
    let map = rows.table_map(alloc)?;
    if map.table_name_raw() != rows.table() || map.database_name_raw() != rows.database() {
        put_text("another map for ", out)?;
    }
    done(write!(out, "{:?} ", rows.images()))?;
    quote(rows.database(), out)?;
    out.push(b'.')?;
    quote(rows.table(), out)?;
    put_cells(alloc, rows, out)
}

/// Appends the schema and the text of a statement.
fn put_statement(texts: QueryTexts<'_>, out: &mut Vec<u8>) -> Result<(), Fault> {
    put_text("statement ", out)?;
    quote(texts.schema, out)?;
    out.push(b' ')?;
    quote(texts.query, out)?;
    Ok(out.push(b';')?)
}

/// Appends a change.
fn put_change(alloc: Global, change: Change<'_>, out: &mut Vec<u8>) -> Result<(), Fault> {
    match change.what {
        What::Rows(rows) => put_rows(alloc, rows, out),
        What::Statement(texts) => put_statement(texts, out),
    }
}

/// Appends a transaction: its GTID, its changes, and the position after it.
pub(crate) fn put_transaction(
    alloc: Global,
    transaction: CommittedTransaction<'_>,
    out: &mut Vec<u8>,
) -> Result<(), Fault> {
    put_gtid(transaction.gtid(), out)?;
    for change in transaction.changes() {
        out.push(b' ')?;
        put_change(alloc, change, out)?;
    }
    done(write!(out, " commit {}", transaction.log_pos()))
}

/// Appends `, ` unless the text is empty.
pub(crate) fn put_comma(out: &mut Vec<u8>) -> Result<(), Fault> {
    if out.is_empty() {
        return Ok(());
    }
    put_text(", ", out)
}

/// Appends a name and a number, if there is one.
fn put_field(name: &str, number: Option<u64>, out: &mut Vec<u8>) -> Result<(), Fault> {
    match number {
        Some(number) => done(write!(out, " {name} {number}")),
        None => Ok(()),
    }
}

/// Appends how the reading of a log ended: the verdict and the offset there; the type and the size of the event that stopped it,
/// if its header is there; the last commit; the type of the newest event; the number of bytes that remain; `open` and `cut`; and
/// where reading may go on.
fn put_stop(stop: &Stop, out: &mut Vec<u8>) -> Result<(), Fault> {
    done(write!(out, "{:?} at {}", stop.verdict, stop.offset))?;
    let header = stop.header.as_ref();
    put_field("type", header.map(|it| u64::from(it.event_type_raw())), out)?;
    put_field("size", header.map(|it| u64::from(it.event_size())), out)?;
    put_field("commit", stop.last_commit.map(u64::from), out)?;
    put_field("newest", stop.newest_type.map(u64::from), out)?;
    put_field("left", Some(stop.remaining as u64), out)?;
    put_field("next", stop.next_offset(), out)?;
    if stop.is_open {
        put_text(" open", out)?;
    }
    if stop.is_cut {
        put_text(" cut", out)?;
    }
    Ok(())
}

/// Appends the text of transactions that are owned.
fn put_owned(alloc: Global, owned: &[OwnedTransaction], out: &mut Vec<u8>) -> Result<(), Fault> {
    for transaction in owned {
        put_comma(out)?;
        put_transaction(alloc, transaction.transaction(), out)?;
    }
    Ok(())
}

/// Appends the transactions of a log. Those that are owned must be the same after the log went on.
fn put_log<F: Fn(&[u8]) -> u32>(
    alloc: Global,
    log: &mut ChangeLog<Bytes<'_>, F>,
    out: &mut Vec<u8>,
) -> Result<Result<bool, Verdict>, Fault> {
    let mut owned = Vec::new(alloc);
    let mut end = log.advance();
    while end == Ok(true) {
        put_comma(out)?;
        put_transaction(alloc, log.transaction(), out)?;
        owned.push(log.transaction().to_owned(alloc)?)?;
        end = log.advance();
    }
    let mut same = Vec::new(alloc);
    put_owned(alloc, &owned, &mut same)?;
    if *out != same {
        put_text(" owned: ", out)?;
        out.extend_from_slice(&same)?;
    }
    Ok(end)
}

/// Appends the transactions of a log, and how its reading ended; the same must be returned once more.
fn put_changes(alloc: Global, bytes: &[u8], fails: bool, out: &mut Vec<u8>) -> Result<(), Fault> {
    let reader = Watched::new(Bytes { left: bytes, fails });
    let mut log = match ChangeLog::begin(alloc, reader, crc32) {
        Ok(log) => log,
        Err(none) => {
            let failed = if none.reader.failed() { " failed" } else { "" };
            return done(write!(out, "no log: {:?}{failed}", none.verdict));
        }
    };
    let has_ended = log.stop().is_some();
    let end = put_log(alloc, &mut log, out)?;
    put_comma(out)?;
    if has_ended || log.advance() != end {
        put_text("another end: ", out)?;
    }
    if end == Ok(false) && !log.source().event().is_empty() {
        put_text("an event is left: ", out)?;
    }
    match log.stop() {
        Some(stop) if end != Err(stop.verdict) && end != Ok(false) => put_text(
            "another verdict",
            out,
        ),
        Some(stop) => put_stop(&stop, out),
        None => put_text("not ended", out),
    }
}

/// The bytes of names between commas.
fn names_of(alloc: Global, word: &str) -> Result<Vec<Vec<u8>>, Fault> {
    let mut names = Vec::new(alloc);
    for name in word.split(',') {
        if !name.is_empty() {
            names.push(Vec::from_slice(alloc, name.as_bytes())?)?;
        }
    }
    Ok(names)
}

/// The slices of names.
fn slices_of<'n>(alloc: Global, names: &'n [Vec<u8>]) -> Result<Vec<&'n [u8]>, Fault> {
    let mut slices = Vec::new(alloc);
    for name in names {
        slices.push(name.as_slice())?;
    }
    Ok(slices)
}

/// The patterns among full names of tables, which have `*`: of the database's name before the first point, and of the table's.
fn patterns_of<'n>(alloc: Global, names: &[&'n [u8]]) -> Result<Vec<(&'n [u8], &'n [u8])>, Fault> {
    let mut patterns = Vec::new(alloc);
    for name in names {
        if name.contains(&b'*')
            && let Some(at) = name.iter().position(|byte| *byte == b'.')
        {
            patterns.push((&name[..at], &name[at + 1..]))?;
        }
    }
    Ok(patterns)
}

/// The limits of positions and times of a filter: `after:N`, `up_to:N`, `from:N`, `to:N`.
fn limited<'f>(filter: Filter<'f>, limits: &[&str]) -> Result<Filter<'f>, Fault> {
    let mut filter = filter;
    for word in limits {
        let (name, number) = word.split_once(':').ok_or(Fault::NoCase)?;
        let number = number_of(number)?;
        match name {
            "after" => filter.after = Some(number as u32),
            "up_to" => filter.up_to = Some(number as u32),
            "from" => filter.from_time = Some(number),
            "to" => filter.to_time = Some(number),
            _ => return Err(Fault::NoCase),
        }
    }
    Ok(filter)
}

/// Appends what a filter takes of a log: the changes that it takes of each transaction, and `not` if it doesn't take that one.
fn put_taken(
    alloc: Global,
    bytes: &[u8],
    filter: Filter<'_>,
    out: &mut Vec<u8>,
) -> Result<(), Fault> {
    let Ok(mut log) = ChangeLog::new(alloc, bytes, crc32) else {
        return put_text("no log", out);
    };
    while let Ok(Some(transaction)) = log.next() {
        put_comma(out)?;
        for change in transaction.changes().taken_by(filter) {
            put_change(alloc, change, out)?;
            out.push(b' ')?;
        }
        if !filter.takes_transaction(transaction) {
            put_text("not ", out)?;
        }
        done(write!(out, "commit {}", transaction.log_pos()))?;
    }
    Ok(())
}

/// `filtered LOG DATABASES TABLES EXCLUDED LIMIT..`: names are between commas, `''` for none; tables with `*` are patterns too.
fn put_filtered(alloc: Global, arguments: &[&str], out: &mut Vec<u8>) -> Result<(), Fault> {
    let [log, databases, tables, excluded, limits @ ..] = arguments else {
        return Err(Fault::NoCase);
    };
    let (databases, tables) = (
        names_of(alloc, plain(databases))?,
        names_of(alloc, plain(tables))?,
    );
    let excluded = names_of(alloc, plain(excluded))?;
    let (databases, tables) = (slices_of(alloc, &databases)?, slices_of(alloc, &tables)?);
    let excluded = slices_of(alloc, &excluded)?;
    let (table_patterns, excluded_patterns) = (
        patterns_of(alloc, &tables)?,
        patterns_of(alloc, &excluded)?,
    );
    let mut filter = Filter::all();
    filter.databases = &databases;
    filter.tables = &tables;
    filter.table_patterns = &table_patterns;
    filter.excluded = &excluded;
    filter.excluded_patterns = &excluded_patterns;
    put_taken(alloc, &bytes_of(alloc, log)?, limited(filter, limits)?, out)
}

/// A word without the quotes that stand for none.
fn plain(word: &str) -> &str {
    if word == "''" { "" } else { word }
}

/// `changes LOG`, `changes_failing LOG` (the reader fails after its bytes), `filtered LOG ..`.
pub(crate) fn put_of_log(
    alloc: Global,
    call: &str,
    arguments: &[&str],
    out: &mut Vec<u8>,
) -> Result<(), Fault> {
    match (call, arguments) {
        ("changes", [log]) => put_changes(alloc, &bytes_of(alloc, log)?, false, out),
        ("changes_failing", [log]) => put_changes(alloc, &bytes_of(alloc, log)?, true, out),
        ("filtered", _) => put_filtered(alloc, arguments, out),
        _ => Err(Fault::NoCase),
    }
}
