//! Who changed these tables: prints each committed transaction of a binary log that changes rows of one of them, or all transactions
//! with a change if none is named. Its line has its GTID, the position after it, its time in seconds since 1970 and its server; the
//! lines after it are all of its changes, an update as the row before it and after it.
//!
//! usage: audit FILE DATABASE.TABLE..
#![tactic(auto)]

use binlog_feed::{
    Change, ChangeLog, CommittedTransaction, Filter, Gtid, RowImages, RowPart, RowsError, TableRows,
    Verdict, What, crc32, name_of, put_cell_ref, quote,
};
use std::alloc::{AllocError, Global};
use std::env;
use std::fs::File;
use std::io::{self, Read, Write};
use std::process::ExitCode;
use std::rt::{Env, Files};

/// The names of tables, as bytes.
fn bytes_of(alloc: Global, tables: &[String]) -> Result<Vec<&[u8]>, AllocError> {
    let mut names = Vec::new(alloc);
    for table in tables {
        names.push(table.as_str().as_bytes())?;
    }
    Ok(names)
}

/// Appends a GTID; `-` if there is none.
fn put_gtid(gtid: Option<Gtid<'_>>, text: &mut Vec<u8>) -> io::Result<()> {
    match gtid {
        Some(Gtid::Numbered { uuid, number }) => {
            for (index, byte) in uuid.iter().enumerate() {
                let hyphen = if matches!(index, 4 | 6 | 8 | 10) {
                    "-"
                } else {
                    ""
                };
                write!(text, "{hyphen}{byte:02x}")?;
            }
            write!(text, ":{number}")
        }
        Some(Gtid::Tagged(_)) => write!(text, "tagged"),
        Some(Gtid::Anonymous) | None => write!(text, "-"),
    }
}

/// Appends a line for each row that an event changed.
fn put_rows(alloc: Global, rows: TableRows<'_>, text: &mut Vec<u8>) -> Result<(), RowsError> {
    let verb: &[u8] = match rows.images() {
        RowImages::After => b"  insert ",
        RowImages::Before => b"  delete ",
        RowImages::BeforeAndAfter | RowImages::BeforeAndPartialAfter => b"  update ",
    };
    let mut cursor = rows.cursor();
    let mut is_start = true;
    for _ in 0..u64::MAX {
        let Some(part) = cursor.next_part()? else {
            break;
        };
        if is_start {
            text.extend_from_slice(verb)?;
            quote(rows.table(), text)?;
        }
        is_start = matches!(part, RowPart::EndOfRow);
        match part {
            RowPart::Cell(index, cell) => put_cell_ref(alloc, index, cell, text)?,
            RowPart::NextImage => text.extend_from_slice(b" to")?,
            RowPart::EndOfRow => text.push(b'\n')?,
        }
    }
    Ok(())
}

/// Appends the lines of a change.
fn put_change(alloc: Global, change: Change<'_>, text: &mut Vec<u8>) -> Result<(), RowsError> {
    match change.what {
        What::Rows(rows) => put_rows(alloc, rows, text),
        What::Statement(texts) => {
            text.extend_from_slice(b"  statement ")?;
            quote(texts.query, text)?;
            Ok(text.push(b'\n')?)
        }
    }
}

/// Appends the lines of a transaction.
fn put_transaction(
    alloc: Global,
    transaction: CommittedTransaction<'_>,
    text: &mut Vec<u8>,
) -> Result<(), Verdict> {
    let header = transaction.header();
    let (position, time, server) = (header.log_pos(), header.timestamp(), header.server_id());
    put_gtid(transaction.gtid(), text).map_err(|_| Verdict::Memory)?;
    let line = writeln!(text, " at {position}, time {time}, server {server}");
    line.map_err(|_| Verdict::Memory)?;
    for change in transaction.changes() {
        put_change(alloc, change, text)?;
    }
    Ok(())
}

/// Writes the transactions of a log with a change that the filter takes.
fn audit<R: Read + Drop, W: Write>(
    alloc: Global,
    log: R,
    filter: Filter<'_>,
    out: &mut W,
) -> Result<(), Verdict> {
    let mut log = ChangeLog::new(alloc, log, crc32)?;
    let mut text = Vec::new(alloc);
    for _ in 0..u64::MAX {
        let Some(transaction) = log.next()? else {
            break;
        };
        if transaction.changes().taken_by(filter).next().is_some() {
            text.clear();
            put_transaction(alloc, transaction, &mut text)?;
            out.write_all(&text).map_err(|_| Verdict::Write)?;
        }
    }
    Ok(())
}

/// Runs the program. The error is the word that it prints.
fn run(rt: &HostRuntime) -> Result<(), &'static str> {
    let words = env::args(rt).map_err(|_| "Usage")?;
    let words: Vec<String> = words.skip(1).collect(rt.alloc()).map_err(|_| "Memory")?;
    let [path, tables @ ..] = words.as_slice() else {
        return Err("Usage");
    };
    let log = File::open(rt, path.as_str()).map_err(|_| "Open")?;
    let names = bytes_of(rt.alloc(), tables).map_err(|_| "Memory")?;
    let filter = Filter {
        databases: &[],
        tables: &names,
        table_patterns: &[],
        excluded: &[],
        excluded_patterns: &[],
        after: None,
        up_to: None,
        from_time: None,
        to_time: None,
    };
    let audited = audit(rt.alloc(), log, filter, &mut io::writer(rt));
    audited.map_err(|verdict| name_of(&verdict))
}

fn main(rt: HostRuntime) -> ExitCode {
    match run(&rt) {
        Ok(()) => ExitCode::SUCCESS,
        Err(word) => {
            let _ = eprintln!(&rt; "audit: {word}");
            ExitCode::FAILURE
        }
    }
}
