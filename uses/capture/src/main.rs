//! Captures the committed changes of a binary log into tables of a SQLite database.
//!
//! usage: capture FILE LOG DATABASE
//!
//! The rows of each transaction and the position after it, under the name LOG, are written in one transaction of the database. So a
//! run may be stopped anywhere, even killed: the next one goes on after the last transaction that the database has. The table `t` of
//! the database `d` is the table "d.t" with the columns c0, c1 and so on. The log has to begin where its tables are empty, and
//! to have complete images (`binlog_row_image=FULL`, the default).
#![tactic(auto)]

use binlog_feed::{
    BinlogValue, CellRef, ChangeLog, CommittedTransaction, RowImages, RowPart, RowsError, TableRows,
    Value, Verdict, What, crc32, name_of, put_json, put_value,
};
use sqlite::types::{Bytes, ToSql, Value as Stored};
use sqlite::{Alter, Connection, Error, Transaction, params};
use std::alloc::{AllocError, AllocFailed, Global};
use std::env;
use std::fs::File;
use std::io::Read;
use std::num::f64_from_bits_with_nan;
use std::process::ExitCode;
use std::rt::{Env, Files};

/// The position of a log's first event.
const FIRST_POSITION: u32 = 4;

/// The table of the positions.
const POSITIONS: &str =
    "CREATE TABLE IF NOT EXISTS positions (log TEXT PRIMARY KEY, position INTEGER NOT NULL)";

/// Why the changes can't be captured.
#[derive(Debug, Drop)]
enum Stop {
    /// The log has a fault.
    Log(Verdict),
    /// The database reports an error.
    Database(Error),
    /// The name of a table isn't UTF-8, or has a quote.
    Name,
    /// A row to change isn't there.
    NoRow,
}

impl From<Verdict> for Stop {
    fn from(verdict: Verdict) -> Stop {
        Stop::Log(verdict)
    }
}

impl From<Error> for Stop {
    fn from(error: Error) -> Stop {
        Stop::Database(error)
    }
}

impl From<RowsError> for Stop {
    fn from(error: RowsError) -> Stop {
        Stop::Log(Verdict::from(error))
    }
}

impl From<AllocError> for Stop {
    fn from(_: AllocError) -> Stop {
        Stop::Log(Verdict::Memory)
    }
}

impl<T: Drop> From<AllocFailed<T>> for Stop {
    fn from(_: AllocFailed<T>) -> Stop {
        Stop::Log(Verdict::Memory)
    }
}

/// Copies a cell as a value of SQLite: a number, a text, or bytes that aren't UTF-8. Times, decimals and JSON documents are texts.
fn stored(alloc: Global, cell: CellRef<'_>) -> Result<Stored, RowsError> {
    let mut text = Vec::new(alloc);
    match cell.to_value(alloc)? {
        BinlogValue::Value(Value::NULL) => return Ok(Stored::Null),
        BinlogValue::Value(Value::Int(number)) => return Ok(Stored::Int(number)),
        BinlogValue::Value(Value::Double(bits)) => return Ok(Stored::Real(f64_from_bits_with_nan(
            bits,
        ))),
        BinlogValue::Value(Value::Bytes(bytes)) => {
            let is_text = str::from_utf8(&bytes).is_ok();
            let bytes = Bytes::from_slice(alloc, &bytes)?;
            return Ok(if is_text {
                Stored::Text(bytes)
            } else {
                Stored::Blob(bytes)
            });
        }
        BinlogValue::Value(value) => put_value(&value, &mut text)?,
        BinlogValue::Jsonb(document) => put_json(&document.parse(alloc)?, &mut text)?,
        BinlogValue::JsonDiff(_) => return Err(RowsError::Cell),
    }
    Ok(Stored::Text(Bytes::from_slice(alloc, &text)?))
}

/// The statements for a table.
#[derive(Drop)]
struct Statements {
    create: String,
    insert: String,
    delete: String,
}

impl Statements {
    /// The statement for an image of a row: as the row is after a change, or as it was before.
    fn for_image(&self, is_after: bool) -> &str {
        if is_after { &self.insert } else { &self.delete }
    }
}

/// The statements for a table with columns c0, c1 and so on.
fn statements_for(alloc: Global, table: &str, columns: usize) -> Result<Statements, AllocError> {
    let (mut names, mut values) = (String::new(alloc), String::new(alloc));
    let mut test = String::from_str(alloc, "true")?;
    for index in 0..columns {
        let comma = if index == 0 { "" } else { ", " };
        names.push_str(&format!(in alloc; "{comma}c{index}")?)?;
        values.push_str(&format!(in alloc; "{comma}?{}", index + 1)?)?;
        test.push_str(&format!(in alloc; " AND c{index} IS ?{}", index + 1)?)?;
    }
    let row = format!(in alloc; "SELECT rowid FROM \"{table}\" WHERE {test} LIMIT 1")?;
    Ok(Statements {
        create: format!(in alloc; "CREATE TABLE IF NOT EXISTS \"{table}\" ({names})")?,
        insert: format!(in alloc; "INSERT INTO \"{table}\" VALUES ({values})")?,
        delete: format!(in alloc; "DELETE FROM \"{table}\" WHERE rowid = ({row})")?,
    })
}

/// The name of the table for rows.
fn table_of(alloc: Global, rows: TableRows<'_>) -> Result<String, Stop> {
    match (
        str::from_utf8(rows.database()),
        str::from_utf8(rows.table()),
    ) {
        (Ok(database), Ok(table)) if !database.contains('"') && !table.contains('"') => {
            Ok(format!(in alloc; "{database}.{table}")?)
        }
        _ => Err(Stop::Name),
    }
}

/// Inserts or deletes a row.
fn change<S: Alter>(
    alloc: Global,
    target: &mut Transaction<'_, S>,
    statement: &str,
    row: &[Stored],
) -> Result<(), Stop> {
    let mut values = Vec::new(alloc);
    for value in row {
        values.push(value.to_sql())?;
    }
    match target.execute(statement, &values)? {
        1 => Ok(()),
        _ => Err(Stop::NoRow),
    }
}

/// Applies the rows of an event. An updated row is deleted, and inserted with its new values.
fn apply_rows<S: Alter>(
    alloc: Global,
    target: &mut Transaction<'_, S>,
    rows: TableRows<'_>,
) -> Result<(), Stop> {
    let columns = rows.table_map(alloc)?.columns_count();
    let statements = statements_for(alloc, &table_of(alloc, rows)?, columns as usize)?;
    target.execute(&statements.create, &[])?;
    let is_insert = matches!(rows.images(), RowImages::After);
    let mut is_after = is_insert;
    let mut row = Vec::new(alloc);
    let mut cursor = rows.cursor();
    for _ in 0..u64::MAX {
        let Some(part) = cursor.next_part()? else {
            break;
        };
        if let RowPart::Cell(_, cell) = part {
            row.push(stored(alloc, cell)?)?;
            continue;
        }
        change(alloc, target, statements.for_image(is_after), &row)?;
        row.clear();
        is_after = is_insert || matches!(part, RowPart::NextImage);
    }
    Ok(())
}

/// Applies a transaction: its rows, and the position after it.
fn apply<S: Alter>(
    alloc: Global,
    database: &mut Connection<S>,
    name: &str,
    transaction: CommittedTransaction<'_>,
) -> Result<(), Stop> {
    if !database.is_autocommit() {
        return Err(Stop::NoRow);
    }
    let mut target = database.transaction();
    for change in transaction.changes() {
        if let What::Rows(rows) = change.what {
            apply_rows(alloc, &mut target, rows)?;
        }
    }
    let values = params![name, transaction.log_pos()];
    target.execute("INSERT OR REPLACE INTO positions VALUES (?1, ?2)", values)?;
    Ok(target.commit()?)
}

/// The position up to which the database has a log.
fn position_of<S: Alter>(database: &mut Connection<S>, name: &str) -> Result<u32, Stop> {
    database.execute(POSITIONS, &[])?;
    let query = "SELECT position FROM positions WHERE log = ?1";
    match database.query_row(query, params![name]) {
        Ok(row) => Ok(row.get(0)?),
        Err(Error::QueryReturnedNoRows) => Ok(FIRST_POSITION),
        Err(error) => Err(Stop::Database(error)),
    }
}

/// Captures a log into a database; returns the position up to which the database has it.
fn capture<S: Alter, R: Read + Drop>(
    alloc: Global,
    database: &mut Connection<S>,
    name: &str,
    log: R,
) -> Result<u32, Stop> {
    let mut position = position_of(database, name)?;
    let mut log = ChangeLog::new(alloc, log, crc32)?;
    for _ in 0..u64::MAX {
        let Some(transaction) = log.next()? else {
            break;
        };
        if transaction.log_pos() > position {
            apply(alloc, database, name, transaction)?;
            position = transaction.log_pos();
        }
    }
    Ok(position)
}

/// Runs the program. The error is what it prints.
fn run(rt: &HostRuntime) -> Result<(), &'static str> {
    let words = env::args(rt).map_err(|_| "Usage")?;
    let words: Vec<String> = words.skip(1).collect(rt.alloc()).map_err(|_| "Memory")?;
    let [path, name, database] = words.as_slice() else {
        return Err("Usage");
    };
    let log = File::open(rt, path.as_str()).map_err(|_| "Open")?;
    let database = Connection::open(rt, database.as_str());
    let mut database = database.map_err(|_| "the database can't be opened")?;
    let position = match capture(rt.alloc(), &mut database, name.as_str(), log) {
        Ok(position) => position,
        Err(Stop::Log(verdict)) => return Err(name_of(&verdict)),
        Err(Stop::Database(_)) => return Err("the database reports an error"),
        Err(Stop::Name) => return Err("the name of a table isn't UTF-8, or has a quote"),
        Err(Stop::NoRow) => return Err("a row to change isn't there"),
    };
    database
        .close()
        .map_err(|_| "the database can't be closed")?;
    println!(rt; "{position}").map_err(|_| "Write")
}

fn main(rt: HostRuntime) -> ExitCode {
    match run(&rt) {
        Ok(()) => ExitCode::SUCCESS,
        Err(word) => {
            let _ = eprintln!(&rt; "capture: {word}");
            ExitCode::FAILURE
        }
    }
}
