//! Applies the rows of a table in a binary log to a table in memory, and prints the rows that are left.
//!
//! usage: applier FILE DATABASE.TABLE
//!
//! The first column of the table is its key. Rows are applied when their transaction is committed; those of a transaction that is
//! rolled back are dropped.
#![tactic(auto)]

use binlog_feed::put_value;
use mysql_binlog_events::{
    BinlogCtx, BinlogFile, EventError, EventParts, EventStreamReader, QueryEvent, RowsEventData,
    read_struct,
};
use mysql_binlog_rows::{
    BinlogRow, BinlogValue, BinlogVersion, ColumnPlan, EventType, RowsError, RowsEventType,
    TableMapEvent,
};
use std::alloc::Global;
use std::collections::BTreeMap;
use std::fs::File;
use std::io::{self, BufReader, Read, Write};
use std::process::ExitCode;
use std::rt::{Env, Files};
use std::{env, mem};

/// A change of a row: as it was before, and as it is after.
type RowChange = (Option<BinlogRow>, Option<BinlogRow>);

/// A table: its rows by their key, and the changes of the open transaction.
#[derive(Drop)]
struct Table<'a> {
    alloc: Global,
    database: &'a [u8],
    name: &'a [u8],
    /// The newest table map's id and the plan of its columns.
    plan: Option<(u64, ColumnPlan)>,
    open: Vec<RowChange>,
    rows: BTreeMap<Vec<u8>, BinlogRow>,
}

/// The text of a row's column.
fn text_of(alloc: Global, row: &BinlogRow, index: usize) -> Result<Vec<u8>, RowsError> {
    let mut text = Vec::new(alloc);
    match row.as_ref(index) {
        Some(BinlogValue::Value(value)) => put_value(value, &mut text)?,
        Some(_) => text.extend_from_slice(b"(a document)")?,
        None => {}
    }
    Ok(text)
}

impl Table<'_> {
    /// Takes a table map: if it is the table's, its columns are those of the next rows.
    fn take_map(&mut self, map: &TableMapEvent<'_>) -> Result<(), RowsError> {
        if map.database_name_raw() == self.database && map.table_name_raw() == self.name {
            self.plan = Some((map.table_id(), ColumnPlan::new(self.alloc, map)?));
        }
        Ok(())
    }

    /// Takes a rows event: if it is the table's, its changes are those of the open transaction.
    fn take_rows(&mut self, event: &RowsEventData<'_>) -> Result<(), RowsError> {
        if let Some((table_id, plan)) = &self.plan {
            if event.table_id() == *table_id {
                for change in event.rows_by(self.alloc, plan) {
                    self.open.push(change?)?;
                }
            }
        }
        Ok(())
    }

    /// Applies the changes of the open transaction.
    fn commit(&mut self) -> Result<(), RowsError> {
        for (before, after) in mem::replace(&mut self.open, Vec::new(self.alloc)) {
            if let Some(row) = before {
                self.rows.remove(&text_of(self.alloc, &row, 0)?);
            }
            if let Some(row) = after {
                let key = text_of(self.alloc, &row, 0)?;
                self.rows.insert(key, row)?;
            }
        }
        Ok(())
    }

    /// Takes a statement: a transaction is committed, or rolled back.
    fn take_statement(&mut self, text: &[u8]) -> Result<(), RowsError> {
        match text {
            b"COMMIT" => self.commit()?,
            b"ROLLBACK" => self.open.clear(),
            _ => {}
        }
        Ok(())
    }

    /// Takes the next event of a log.
    fn take(&mut self, log: &EventStreamReader, event: &EventParts<'_>) -> Result<(), EventError> {
        let header = event.header();
        let ctx = BinlogCtx::new(event.body().len(), log.get_fde(), header.event_type_raw());
        let Ok(event_type) = header.event_type() else {
            return Err(EventError::Invalid);
        };
        let taken = match event_type {
            EventType::TABLE_MAP_EVENT => {
                let map = read_struct::<TableMapEvent<'_>>(self.alloc, ctx, event.body())?;
                self.take_map(&map)
            }
            EventType::XID_EVENT => self.commit(),
            EventType::QUERY_EVENT => {
                let query = read_struct::<QueryEvent<'_>>(self.alloc, ctx, event.body())?;
                self.take_statement(query.query_raw())
            }
            _ => match RowsEventType::of(event_type) {
                Some(rows) => {
                    let rows = RowsEventData::read(self.alloc, rows, ctx, event.body())?;
                    self.take_rows(&rows)
                }
                None => Ok(()),
            },
        };
        Ok(taken?)
    }

    /// Takes all events of a log.
    fn take_all<R: Read + Drop>(&mut self, log: R) -> Result<(), EventError> {
        let mut log = BinlogFile::new(self.alloc, BinlogVersion::Version4, log)?;
        let mut frame = Vec::new(self.alloc);
        for _ in 0..u64::MAX {
            let Some(event) = log.next_event(&mut frame) else {
                break;
            };
            self.take(log.reader(), &event?)?;
        }
        Ok(())
    }

    /// The rows, a line for each with its columns.
    fn lines(&self) -> Result<Vec<u8>, RowsError> {
        let mut lines = Vec::new(self.alloc);
        for (_, row) in &self.rows {
            for index in 0..row.len() {
                lines.extend_from_slice(if index == 0 { b"".as_slice() } else { b"\t" })?;
                lines.extend_from_slice(&text_of(self.alloc, row, index)?)?;
            }
            lines.push(b'\n')?;
        }
        Ok(lines)
    }
}

/// What the program prints for an error of reading the log.
fn word_of(error: EventError) -> &'static str {
    match error {
        EventError::Memory => "Memory",
        EventError::Read => "Read",
        _ => "the log is damaged",
    }
}

/// Runs the program. The error is the word that it prints.
fn run(rt: &HostRuntime) -> Result<(), &'static str> {
    let words = env::args(rt).map_err(|_| "Usage")?;
    let words: Vec<String> = words.skip(1).collect(rt.alloc()).map_err(|_| "Memory")?;
    let [path, table] = words.as_slice() else {
        return Err("Usage");
    };
    let (database, name) = table.as_str().split_once('.').ok_or("Usage")?;
    let log = File::open(rt, path.as_str()).map_err(|_| "Open")?;
    let mut table = Table {
        alloc: rt.alloc(),
        database: database.as_bytes(),
        name: name.as_bytes(),
        plan: None,
        open: Vec::new(rt.alloc()),
        rows: BTreeMap::new(rt.alloc()),
    };
    let buffered = BufReader::new(rt.alloc(), log).map_err(|_| "Memory")?;
    table.take_all(buffered).map_err(word_of)?;
    let lines = table.lines().map_err(|_| "Memory")?;
    io::writer(rt).write_all(&lines).map_err(|_| "Write")
}

fn main(rt: HostRuntime) -> ExitCode {
    match run(&rt) {
        Ok(()) => ExitCode::SUCCESS,
        Err(word) => {
            let _ = eprintln!(&rt; "applier: {word}");
            ExitCode::FAILURE
        }
    }
}
