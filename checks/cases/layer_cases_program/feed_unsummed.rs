//! The feed with a checksum function that returns 0 for all bytes.

use crate::words::{Fault, bytes_of, done, number_of, put_bytes};
use feed_checks::Verdict;
use feed_replication::{Served, rehearse, request, serve};
use feed_transactions::report;
use std::alloc::Global;
use std::io::Write;
use wire_buf::Watched;

/// The maximum length of a payload in bytes.
const LIMIT: usize = 1_073_741_824;

/// The checksum of all bytes.
fn zero(_bytes: &[u8]) -> u32 {
    0
}

/// Appends the lines of a text with `;` in place of line feeds, and the verdict.
fn put_lines(text: &[u8], verdict: Verdict, out: &mut Vec<u8>) -> Result<(), Fault> {
    for byte in text {
        out.push(if *byte == b'\n' { b';' } else { *byte })?;
    }
    done(write!(out, "{verdict}"))
}

/// `unsummed_report LOG`: the report, and the verdict.
fn put_report(alloc: Global, log: &str, out: &mut Vec<u8>) -> Result<(), Fault> {
    let log = bytes_of(alloc, log)?;
    let mut writer = Watched::new(Vec::new(alloc));
    let verdict = report(alloc, &mut Watched::new(log.as_slice()), &zero, &mut writer);
    put_lines(&writer.into_inner(), verdict, out)
}

/// `unsummed_run LOG COUNT..`: what a follower prints of answers that break off after these counts of bytes, and the verdict.
fn put_run(
    alloc: Global,
    log: &str,
    counts: &[&str],
    out: &mut Vec<u8>,
) -> Result<(), Fault> {
    let log = bytes_of(alloc, log)?;
    let mut numbers = Vec::new(alloc);
    for count in counts {
        numbers.push(number_of(count)? as usize)?;
    }
    let mut writer = Watched::new(Vec::new(alloc));
    let verdict = rehearse(alloc, &log, &numbers, &zero, &mut writer);
    put_lines(&writer.into_inner(), verdict, out)
}

/// `unsummed_serve LOG POSITION`: how serving from this position ends, the reason of a rejected request once more, and the bytes
/// that are sent.
fn put_served(alloc: Global, log: &str, position: &str, out: &mut Vec<u8>) -> Result<(), Fault> {
    let log = bytes_of(alloc, log)?;
    let Ok(asked) = request(alloc, number_of(position)? as u32, 1, b"") else {
        return Err(Fault::NoCase);
    };
    let mut writer = Watched::new(Vec::new(alloc));
    let mut reader = Watched::new(log.as_slice());
    let served = serve(alloc, &asked, b"", LIMIT, &mut reader, &zero, &mut writer);
    done(write!(out, "{served} "))?;
    if let Served::Refused(error) = served {
        done(write!(out, "for {error} "))?;
    }
    put_bytes(&writer.into_inner(), out)
}

/// The cases of this file.
pub(crate) fn put_unsummed(
    alloc: Global,
    call: &str,
    arguments: &[&str],
    out: &mut Vec<u8>,
) -> Result<(), Fault> {
    match (call, arguments) {
        ("unsummed_report", [log]) => put_report(alloc, log, out),
        ("unsummed_run", [log, counts @ ..]) => put_run(alloc, log, counts, out),
        ("unsummed_serve", [log, position]) => put_served(alloc, log, position, out),
        _ => Err(Fault::NoCase),
    }
}
