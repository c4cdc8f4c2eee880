//! Prints the committed changes of logs as JSON lines: `json FILE..`.

use cuvragyen::{Fault, Log};
use std::io::Write;

fn print(path: &std::path::Path, out: &mut impl Write) -> Result<(), Box<dyn std::error::Error>> {
    let name = path.file_name().unwrap_or_default().to_string_lossy();
    let mut file = std::fs::File::open(path)?;
    let mut log = Log::open(&format!("file={name}"))?;
    log.read_from(&mut file, |mut transaction| Ok(out.write_all(transaction.lines()?)?))
}

fn main() {
    let mut out = std::io::BufWriter::new(std::io::stdout());
    for path in std::env::args_os().skip(1) {
        match print(path.as_ref(), &mut out) {
            Err(error) if !error.is::<Fault>() => panic!("{error}"),
            _ => {}
        }
    }
}
