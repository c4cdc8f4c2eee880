//! Prints each changed row of logs with its cells, through binary records: `rows FILE..`.
//!
//! A line is what happened, the table, the position after the event, and the images: a cell is its column, `=`, a letter for its kind, and
//! its value; bytes are hexadecimal.

use cuvragyen::{Cells, Change, Log, Record, Rows, Table, Value};
use std::io::Write;

fn hexadecimal(bytes: &[u8]) -> String {
    bytes.iter().map(|byte| format!("{byte:02x}")).collect()
}

fn text(value: Value<'_>) -> String {
    match value {
        Value::Absent => "A".into(),
        Value::Null => "N".into(),
        Value::Int(number) => format!("i{number}"),
        Value::UInt(number) => format!("u{number}"),
        Value::Float(number) => format!("f{:08x}", number.to_bits()),
        Value::Double(number) => format!("d{:016x}", number.to_bits()),
        Value::Bytes(bytes) => format!("b{}", hexadecimal(bytes)),
        Value::Decimal(digits) => format!("D{digits}"),
        Value::Time(time) => format!("T{}", hexadecimal(time.as_bytes())),
        Value::Json(json) => format!("J{}", hexadecimal(json.as_bytes())),
        Value::JsonUpdates(json) => format!("U{}", hexadecimal(json.as_bytes())),
    }
}

fn image(table: &Table<'_>, cells: Cells<'_>) -> String {
    let named = table.columns().iter().zip(cells);
    named.map(|(column, cell)| format!(" {}={}", hexadecimal(column.name), text(cell))).collect()
}

fn print_rows(rows: &Rows<'_>, out: &mut impl Write) -> std::io::Result<()> {
    let table = rows.table();
    let kind = format!("{:?}", rows.kind()).to_lowercase();
    for row in rows.rows() {
        write!(out, "{kind} {}.{} {}", hexadecimal(table.database), hexadecimal(table.name), rows.position())?;
        for cells in [row.before(), row.after()].into_iter().flatten() {
            write!(out, " |{}", image(table, cells))?;
        }
        writeln!(out)?;
    }
    Ok(())
}

fn print(record: &Record<'_>, out: &mut impl Write) -> std::io::Result<()> {
    for change in record.changes() {
        match change {
            Change::Rows(rows) => print_rows(&rows, out)?,
            Change::Statement(statement) => {
                let (database, text) = (hexadecimal(statement.database), hexadecimal(statement.text));
                writeln!(out, "statement {database} {} | {text}", statement.position)?;
            }
        }
    }
    Ok(())
}

fn read(path: &str, out: &mut impl Write) -> Result<(), Box<dyn std::error::Error>> {
    let mut file = std::fs::File::open(path)?;
    let mut log = Log::open("records=1")?;
    log.read_from(&mut file, |mut transaction| Ok(print(&transaction.record()?, out)?))
}

fn main() {
    let mut out = std::io::BufWriter::new(std::io::stdout());
    for path in std::env::args().skip(1) {
        if let Err(error) = read(&path, &mut out) {
            eprintln!("rows: {path}: {error}");
        }
    }
}
