//! Counts the rows that logs insert, update and delete, by table, through binary records: `count_rows FILE..`.

use cuvragyen::{Change, Log, Record};
use std::collections::BTreeMap;

type Counts = BTreeMap<String, [u64; 3]>;

fn take(record: &Record<'_>, counts: &mut Counts) {
    for change in record.changes() {
        if let Change::Rows(rows) = change {
            let table = rows.table();
            let name = format!("{}.{}", table.database_text(), table.name_text());
            counts.entry(name).or_default()[rows.kind() as usize] += rows.count();
        }
    }
}

fn count(path: &str, counts: &mut Counts) -> Result<(), Box<dyn std::error::Error>> {
    let mut file = std::fs::File::open(path)?;
    let mut log = Log::open("records=1")?;
    log.read_from(&mut file, |mut transaction| {
        take(&transaction.record()?, counts);
        Ok(())
    })
}

fn main() {
    let mut counts = Counts::new();
    for path in std::env::args().skip(1) {
        if let Err(error) = count(&path, &mut counts) {
            eprintln!("count_rows: {path}: {error}");
        }
    }
    for (table, [inserted, updated, deleted]) in counts {
        println!("{table} {inserted} {updated} {deleted}");
    }
}
