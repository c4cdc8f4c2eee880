//! A replica's loop over connections that drop: continues a text of a log's transactions.
//!
//! usage: replica LOG COUNT.. <TEXT >TEXT
//!
//! Standard input is what an earlier run wrote, which may have been stopped at any byte; at first it is empty. The output has its
//! complete transactions, and then those that follow in the log, in order, each once. LOG is a binary log, which stands for a server:
//! its first answer drops after COUNT bytes, its next one after the next COUNT, and so on. Put your connection in place of `Server`.
#![tactic(auto)]

use binlog_feed::{Follower, Verdict, Watched, crc32, kept, name_of, serve};
use std::alloc::Global;
use std::io::{self, Cursor, ErrorKind, Read, Write};
use std::process::ExitCode;
use std::rt::{Env, Files};
use std::{env, fs};

/// The position of a log's first event.
const FIRST_POSITION: u32 = 4;

/// The name of the log on the server.
const NAME: &[u8] = b"binlog.000042";

/// The length of the longest payload to accept: that of a server's setting `max_allowed_packet`.
const LIMIT: usize = 1_073_741_824;

/// What answers requests: a server, once connected and logged in.
trait Source {
    type Answer: Read + Drop;

    /// Connects, sends a request and returns the connection, or None if that fails.
    fn ask(&mut self, request: &[u8]) -> Option<Self::Answer>;
}

/// Follows the log from a position on, through at most `connections` connections. Returns `End` after a complete answer, the first
/// fault, or `Closed` if each connection dropped.
fn follow<S: Source, W: Write>(
    alloc: Global,
    source: &mut S,
    position: u32,
    connections: usize,
    writer: &mut Watched<W>,
) -> Verdict {
    let started = Follower::start(alloc, position, 1, NAME, LIMIT, crc32);
    let Ok((mut follower, mut request)) = started else {
        return Verdict::Memory;
    };
    let mut piece = [0u8; 65_536];
    for _ in 0..connections {
        if let Some(mut answer) = source.ask(&request) {
            for _ in 0..u64::MAX {
                let len = match answer.read(&mut piece) {
                    Ok(0) => break,
                    Ok(len) => len,
                    Err(error) if error.kind() == ErrorKind::Interrupted => continue,
                    Err(_) => break,
                };
                if let Some(verdict) = follower.feed(&piece[..len], writer) {
                    return verdict;
                }
            }
        }
        request = match follower.again() {
            Ok(request) => request,
            Err(fault) => return fault,
        };
    }
    follower.finish()
}

/// A server with one log. Each answer drops after a number of bytes.
#[derive(Drop)]
struct Server<'a> {
    alloc: Global,
    log: &'a [u8],
    counts: &'a [usize],
}

impl Source for Server<'_> {
    type Answer = Cursor<Vec<u8>>;

    fn ask(&mut self, request: &[u8]) -> Option<Cursor<Vec<u8>>> {
        let (count, counts) = self.counts.split_first()?;
        self.counts = counts;
        let mut log = Watched::new(self.log);
        let mut answer = Watched::new(Vec::new(self.alloc));
        serve(
            self.alloc,
            request,
            NAME,
            LIMIT,
            &mut log,
            &crc32,
            &mut answer,
        );
        let mut answer = answer.into_inner();
        answer.truncate(*count);
        Some(Cursor::new(answer))
    }
}

/// Writes the complete transactions of a text, and those that follow in the log.
fn continue_text<W: Write + Drop>(
    alloc: Global,
    text: &mut Vec<u8>,
    log: &[u8],
    counts: &[usize],
    mut out: W,
) -> Verdict {
    let (len, position) = kept(text);
    text.truncate(len);
    if out.write_all(text).is_err() {
        return Verdict::Write;
    }
    let mut server = Server { alloc, log, counts };
    let position = position.unwrap_or(FIRST_POSITION);
    follow(
        alloc,
        &mut server,
        position,
        counts.len(),
        &mut Watched::new(out),
    )
}

/// Runs the program. The error is the word that it prints.
fn run(rt: &HostRuntime) -> Result<(), &'static str> {
    let words = env::args(rt).map_err(|_| "Usage")?;
    let words: Vec<String> = words.skip(1).collect(rt.alloc()).map_err(|_| "Memory")?;
    let [path, words @ ..] = words.as_slice() else {
        return Err("Usage");
    };
    let mut counts = Vec::new(rt.alloc());
    for word in words {
        let count = word.as_str().parse::<usize>().map_err(|_| "Usage")?;
        counts.push(count).map_err(|_| "Memory")?;
    }
    let log = fs::read(rt, path.as_str()).map_err(|_| "Open")?;
    let mut text = Vec::new(rt.alloc());
    rt.reader().read_to_end(&mut text).map_err(|_| "Read")?;
    match continue_text(rt.alloc(), &mut text, &log, &counts, io::writer(rt)) {
        Verdict::End => Ok(()),
        verdict => Err(name_of(&verdict)),
    }
}

fn main(rt: HostRuntime) -> ExitCode {
    match run(&rt) {
        Ok(()) => ExitCode::SUCCESS,
        Err(word) => {
            let _ = eprintln!(&rt; "replica: {word}");
            ExitCode::FAILURE
        }
    }
}
