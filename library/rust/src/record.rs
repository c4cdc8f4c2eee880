//! Transactions as values: a binary record, its changes, rows and cells, borrowed from the log without a copy.

use crate::Header;

/// A transaction as a binary record: its GTID, where it is in the log, and its [`Change`]s.
///
/// ```
/// # let bytes = cuvragyen::example_log();
/// use cuvragyen::{Change, Log, Value};
///
/// let mut log = Log::open("records=1")?;
/// log.push(&bytes)?;
/// while let Some(mut transaction) = log.next()? {
///     let record = transaction.record()?;
///     for change in record.changes() {
///         if let Change::Rows(rows) = change {
///             println!("{:?} {}.{}", rows.kind(), rows.table().database_text(), rows.table().name_text());
///             for row in rows.rows() {
///                 for (column, cell) in rows.table().columns().iter().zip(row.cells()) {
///                     println!("  {} = {:?}", column.name_text(), cell);
///                 }
///             }
///         }
///     }
///     assert_eq!(record.row_count(), 1);
/// }
/// # Ok::<(), cuvragyen::Fault>(())
/// ```
#[derive(Clone, Copy, Debug)]
pub struct Record<'r> {
    changes: u64,
    rows: u64,
    begin: u32,
    header: Header,
    gtid: &'r [u8],
    elements: &'r [u8],
}

/// What is wrong with bytes that aren't a record: they are too short, or of another version.
#[derive(Clone, Copy, Debug, PartialEq, Eq)]
pub struct NoRecord;

impl std::fmt::Display for NoRecord {
    fn fmt(&self, f: &mut std::fmt::Formatter<'_>) -> std::fmt::Result {
        f.write_str("the bytes aren't a record: open the log with records=1")
    }
}

impl std::error::Error for NoRecord {}

/// The bytes that are still to be read.
#[derive(Clone, Copy, Debug)]
struct Rest<'r>(&'r [u8]);

impl<'r> Rest<'r> {
    fn bytes(&mut self, len: u64) -> Option<&'r [u8]> {
        let len = usize::try_from(len).ok().filter(|len| *len <= self.0.len())?;
        let (bytes, rest) = self.0.split_at(len);
        self.0 = rest;
        Some(bytes)
    }

    fn byte(&mut self) -> Option<u8> {
        self.bytes(1).map(|bytes| bytes[0])
    }

    fn half(&mut self) -> Option<u32> {
        self.bytes(4).map(|bytes| u32::from_le_bytes(bytes.try_into().unwrap_or_default()))
    }

    fn word(&mut self) -> Option<u64> {
        self.bytes(8).map(|bytes| u64::from_le_bytes(bytes.try_into().unwrap_or_default()))
    }

    fn text(&mut self) -> Option<&'r [u8]> {
        let len = self.word()?;
        self.bytes(len)
    }
}

impl<'r> Record<'r> {
    /// The record that bytes are, such as those that were written to a file. `NoRecord`: they aren't one.
    pub fn of(bytes: &'r [u8]) -> Result<Record<'r>, NoRecord> {
        Record::read(bytes).ok_or(NoRecord)
    }

    fn read(bytes: &'r [u8]) -> Option<Record<'r>> {
        let mut rest = Rest(bytes);
        let (version, _head, len) = (rest.half()?, rest.half()?, rest.word()?);
        if version != 1 || len != bytes.len() as u64 {
            return None;
        }
        let (changes, rows, begin) = (rest.word()?, rest.word()?, rest.half()?);
        let (position, time, server_id, _flags) = (rest.half()?, rest.half()?, rest.half()?, rest.word()?);
        let gtid = rest.text()?;
        Some(Record { changes, rows, begin, header: Header { time, server_id, position }, gtid, elements: rest.0 })
    }

    /// The event that committed the transaction: its time, its server, and the position after it.
    pub fn header(&self) -> Header {
        self.header
    }

    /// The position in the log at which the transaction begins.
    pub fn begin(&self) -> u32 {
        self.begin
    }

    /// Its GTID as text, `uuid:number`; None if it has none.
    pub fn gtid(&self) -> Option<&'r str> {
        std::str::from_utf8(self.gtid).ok().filter(|gtid| !gtid.is_empty())
    }

    /// How many changes it has, and how many rows and statements these have.
    pub fn change_count(&self) -> u64 {
        self.changes
    }

    /// How many rows and statements its changes have.
    pub fn row_count(&self) -> u64 {
        self.rows
    }

    /// Its changes, in the order of the log.
    pub fn changes(&self) -> Changes<'r> {
        Changes { rest: Rest(self.elements), tables: Vec::new() }
    }
}

/// The remaining changes of a record.
#[derive(Clone, Debug)]
pub struct Changes<'r> {
    rest: Rest<'r>,
    tables: Vec<std::sync::Arc<Table<'r>>>,
}

/// What an event of a transaction changed.
#[derive(Clone, Debug)]
pub enum Change<'r> {
    /// Rows of a table.
    Rows(Rows<'r>),
    /// What a statement changed.
    Statement(Statement<'r>),
}

/// A statement: its database, its text, and the event that it is in.
#[derive(Clone, Copy, Debug)]
pub struct Statement<'r> {
    pub database: &'r [u8],
    pub text: &'r [u8],
    /// The time of its event, in seconds since 1970, and the position after it.
    pub time: u32,
    pub position: u32,
}

/// What happened to rows.
#[derive(Clone, Copy, Debug, PartialEq, Eq, Hash)]
pub enum Kind {
    Insert,
    Update,
    Delete,
}

/// Rows of a table that one event inserted, updated or deleted.
#[derive(Clone, Debug)]
pub struct Rows<'r> {
    kind: Kind,
    table: std::sync::Arc<Table<'r>>,
    time: u32,
    position: u32,
    count: u64,
    cells: Rest<'r>,
}

/// A table: its names and its columns.
#[derive(Clone, Debug)]
pub struct Table<'r> {
    /// The name of its database, and its own.
    pub database: &'r [u8],
    pub name: &'r [u8],
    columns: Vec<Column<'r>>,
}

/// A column of a table.
#[derive(Clone, Debug)]
pub struct Column<'r> {
    /// Its name; no bytes if the log has none.
    pub name: &'r [u8],
    /// The number of its type in MySQL's protocol.
    pub type_number: u8,
    pub is_unsigned: bool,
    /// Whether it is in the primary key.
    pub is_key: bool,
    pub is_nullable: bool,
    /// The number of its collation: 63 for bytes; None if it isn't known, or has none.
    pub collation: Option<u16>,
    /// The members of an ENUM or a SET.
    pub members: Vec<&'r [u8]>,
}

/// The value of a cell.
#[derive(Clone, Copy, Debug, PartialEq)]
pub enum Value<'r> {
    /// The log hasn't this column in this image.
    Absent,
    Null,
    Int(i64),
    /// An unsigned integer; the bits of a BIT or a SET, the number of an ENUM's member, a year.
    UInt(u64),
    Float(f32),
    Double(f64),
    /// Bytes, or text in the column's character set.
    Bytes(&'r [u8]),
    /// The digits of a decimal.
    Decimal(&'r str),
    /// A date, a time, or both.
    Time(&'r str),
    /// A JSON document.
    Json(&'r str),
    /// The updates of a JSON document, as JSON.
    JsonUpdates(&'r str),
}

impl<'r> Table<'r> {
    fn read(content: &'r [u8]) -> Option<Table<'r>> {
        let mut rest = Rest(content);
        let (database, name, count) = (rest.text()?, rest.text()?, rest.word()?);
        let mut columns = Vec::new();
        for _ in 0..count {
            columns.push(Column::read(&mut rest)?);
        }
        Some(Table { database, name, columns })
    }

    /// Its columns, in the order of the table.
    pub fn columns(&self) -> &[Column<'r>] {
        &self.columns
    }

    /// The name of its database as text.
    pub fn database_text(&self) -> std::borrow::Cow<'r, str> {
        String::from_utf8_lossy(self.database)
    }

    /// Its name as text.
    pub fn name_text(&self) -> std::borrow::Cow<'r, str> {
        String::from_utf8_lossy(self.name)
    }
}

impl<'r> Column<'r> {
    fn read(rest: &mut Rest<'r>) -> Option<Column<'r>> {
        let (type_number, bits) = (rest.byte()?, rest.byte()?);
        let collation = u16::from_le_bytes([rest.byte()?, rest.byte()?]);
        let (count, name) = (rest.word()?, rest.text()?);
        let mut members = Vec::new();
        for _ in 0..count {
            members.push(rest.text()?);
        }
        Some(Column {
            name,
            type_number,
            is_unsigned: bits & 1 != 0,
            is_key: bits & 2 != 0,
            is_nullable: bits & 4 != 0,
            collation: Some(collation).filter(|number| *number != 0),
            members,
        })
    }

    /// Its name as text.
    pub fn name_text(&self) -> std::borrow::Cow<'r, str> {
        String::from_utf8_lossy(self.name)
    }
}

impl<'r> Value<'r> {
    fn read(rest: &mut Rest<'r>) -> Option<Value<'r>> {
        let kind = rest.byte()?;
        if kind < 2 {
            return Some(if kind == 0 { Value::Absent } else { Value::Null });
        }
        let number = rest.word()?;
        match kind {
            2 => return Some(Value::Int(number as i64)),
            3 => return Some(Value::UInt(number)),
            4 => return Some(Value::Float(f32::from_bits(number as u32))),
            5 => return Some(Value::Double(f64::from_bits(number))),
            6 | 7 => return None,
            _ => {}
        }
        let bytes = rest.bytes(number)?;
        let text = std::str::from_utf8(bytes).unwrap_or("");
        Some(match kind {
            9 => Value::Decimal(text),
            10 => Value::Time(text),
            11 => Value::Json(text),
            12 => Value::JsonUpdates(text),
            _ => Value::Bytes(bytes),
        })
    }

    /// Its bytes or its text; None for a number, NULL, and an absent cell.
    pub fn as_bytes(&self) -> Option<&'r [u8]> {
        match self {
            Value::Bytes(bytes) => Some(bytes),
            Value::Decimal(text) | Value::Time(text) | Value::Json(text) | Value::JsonUpdates(text) => Some(text.as_bytes()),
            _ => None,
        }
    }

    /// Whether it is NULL.
    pub fn is_null(&self) -> bool {
        matches!(self, Value::Null)
    }
}

impl<'r> Iterator for Changes<'r> {
    type Item = Change<'r>;

    fn next(&mut self) -> Option<Change<'r>> {
        loop {
            let (kind, table, content) = (self.rest.half()?, self.rest.half()?, self.rest.text()?);
            let mut rest = Rest(content);
            let kind = match kind {
                1 => Kind::Insert,
                2 => Kind::Update,
                3 => Kind::Delete,
                4 => {
                    let (time, position) = (rest.half()?, rest.half()?);
                    let (database, text) = (rest.text()?, rest.text()?);
                    return Some(Change::Statement(Statement { database, text, time, position }));
                }
                5 => {
                    self.tables.push(std::sync::Arc::new(Table::read(content)?));
                    continue;
                }
                _ => continue,
            };
            let table = self.tables.get(table as usize)?.clone();
            let (time, position, count) = (rest.half()?, rest.half()?, rest.word()?);
            return Some(Change::Rows(Rows { kind, table, time, position, count, cells: rest }));
        }
    }
}

impl<'r> Rows<'r> {
    /// What happened to the rows.
    pub fn kind(&self) -> Kind {
        self.kind
    }

    /// Their table.
    pub fn table(&self) -> &Table<'r> {
        &self.table
    }

    /// How many they are.
    pub fn count(&self) -> u64 {
        self.count
    }

    /// The time of their event, in seconds since 1970.
    pub fn time(&self) -> u32 {
        self.time
    }

    /// The position in the log after their event.
    pub fn position(&self) -> u32 {
        self.position
    }

    /// The rows.
    pub fn rows(&self) -> RowIter<'r> {
        RowIter { kind: self.kind, columns: self.table.columns.len(), left: self.count, cells: self.cells }
    }
}

/// The remaining rows of an event.
#[derive(Clone, Debug)]
pub struct RowIter<'r> {
    kind: Kind,
    columns: usize,
    left: u64,
    cells: Rest<'r>,
}

/// A row: its image before the change, the one after it, or both.
#[derive(Clone, Copy, Debug)]
pub struct Row<'r> {
    before: Option<Cells<'r>>,
    after: Option<Cells<'r>>,
}

/// The remaining cells of an image, one for each column of the table.
#[derive(Clone, Copy, Debug)]
pub struct Cells<'r> {
    left: usize,
    rest: Rest<'r>,
}

impl<'r> RowIter<'r> {
    /// The next image, which is passed.
    fn image(&mut self) -> Option<Cells<'r>> {
        let image = Cells { left: self.columns, rest: self.cells };
        for _ in 0..self.columns {
            Value::read(&mut self.cells)?;
        }
        Some(image)
    }
}

impl<'r> Iterator for RowIter<'r> {
    type Item = Row<'r>;

    fn next(&mut self) -> Option<Row<'r>> {
        self.left = self.left.checked_sub(1)?;
        let first = self.image()?;
        Some(match self.kind {
            Kind::Insert => Row { before: None, after: Some(first) },
            Kind::Delete => Row { before: Some(first), after: None },
            Kind::Update => Row { before: Some(first), after: Some(self.image()?) },
        })
    }
}

impl<'r> Row<'r> {
    /// The image before the change, of a row that was updated or deleted.
    pub fn before(&self) -> Option<Cells<'r>> {
        self.before
    }

    /// The image after the change, of a row that was inserted or updated.
    pub fn after(&self) -> Option<Cells<'r>> {
        self.after
    }

    /// The row as it was inserted, as it is after an update, or as it was deleted.
    pub fn cells(&self) -> Cells<'r> {
        self.after.or(self.before).unwrap_or(Cells { left: 0, rest: Rest(&[]) })
    }
}

impl<'r> Iterator for Cells<'r> {
    type Item = Value<'r>;

    fn next(&mut self) -> Option<Value<'r>> {
        self.left = self.left.checked_sub(1)?;
        Value::read(&mut self.rest)
    }

    fn size_hint(&self) -> (usize, Option<usize>) {
        (0, Some(self.left))
    }
}
