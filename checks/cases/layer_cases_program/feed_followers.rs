//! Followers of a server's answers: what each of their calls returns.

use crate::feed_values::{put_comma, put_transaction};
use crate::words::{Fault, bytes_of, done, number_of, put_bytes, put_text};
use crc32::crc32;
use binlog_feed::ChangeFollower;
use feed_checks::Verdict;
use feed_replication::{Follower, RequestError, Served, request, serve, serve_semi};
use std::alloc::Global;
use std::io::Write;
use wire_buf::Watched;

/// A server with a binary log, which grows, and the newest request for it.
#[derive(Drop)]
struct Server<'a> {
    name: &'a [u8],
    log: &'a [u8],
    len: usize,
    limit: usize,
    is_semi: bool,
    request: Vec<u8>,
}

impl Server<'_> {
    /// What the server answers to the newest request, and how serving ended.
    fn answer(&self, alloc: Global) -> (Vec<u8>, Served) {
        let log = self.log.get(..self.len).unwrap_or(self.log);
        let mut reader = Watched::new(log);
        let mut writer = Watched::new(Vec::new(alloc));
        let asked = self.request.as_slice();
        let served = if self.is_semi {
            serve_semi(
                alloc,
                asked,
                self.name,
                self.limit,
                &mut reader,
                &crc32,
                &mut writer,
            )
        } else {
            serve(
                alloc,
                asked,
                self.name,
                self.limit,
                &mut reader,
                &crc32,
                &mut writer,
            )
        };
        (writer.into_inner(), served)
    }

    /// Appends the position that the newest request asks from, if it is the request for the log from there; else its bytes.
    fn put_request(&self, alloc: Global, out: &mut Vec<u8>) -> Result<(), Fault> {
        let position = match self.request.get(5..9) {
            Some([a, b, c, d]) => u32::from_le_bytes([*a, *b, *c, *d]),
            _ => 0,
        };
        match request(alloc, position, 1, self.name) {
            Ok(same) if same.as_slice() == self.request.as_slice() => {
                done(write!(out, "from {position}"))
            }
            _ => put_bytes(&self.request, out),
        }
    }
}

/// A follower of one of both kinds.
#[derive(Drop)]
enum Followed<F: Fn(&[u8]) -> u32> {
    /// A follower of text, and the text that it wrote.
    Text(Follower<F>, Vec<u8>),
    /// A follower of values.
    Changes(ChangeFollower<F>),
}

/// Appends a text on one line: `;` stands for each line feed.
fn put_line(text: &[u8], out: &mut Vec<u8>) -> Result<(), Fault> {
    for byte in text {
        out.push(if *byte == b'\n' { b';' } else { *byte })?;
    }
    Ok(())
}

/// Appends a verdict, or `open` if there is none.
fn put_verdict(verdict: Option<Verdict>, out: &mut Vec<u8>) -> Result<(), Fault> {
    match verdict {
        Some(verdict) => done(write!(out, "{verdict:?}")),
        None => put_text("open", out),
    }
}

/// Appends the transaction that a follower lends next, or how that ended; returns whether there was one.
fn put_next<F: Fn(&[u8]) -> u32>(
    alloc: Global,
    follower: &mut ChangeFollower<F>,
    out: &mut Vec<u8>,
) -> Result<bool, Fault> {
    match follower.advance() {
        Ok(true) => {
            put_transaction(alloc, follower.transaction(), out)?;
            Ok(true)
        }
        Ok(false) => {
            put_verdict(None, out)?;
            Ok(false)
        }
        Err(verdict) => {
            put_verdict(Some(verdict), out)?;
            Ok(false)
        }
    }
}

impl<F: Fn(&[u8]) -> u32> Followed<F> {
    /// Gives the follower bytes, and appends the text that it wrote since then, and its verdict. A follower of values lends
    /// nothing yet.
    fn put_given(&mut self, piece: &[u8], out: &mut Vec<u8>) -> Result<(), Fault> {
        match self {
            Followed::Text(follower, text) => {
                text.clear();
                let verdict = follower.feed(piece, &mut Watched::new(&mut *text));
                put_line(text, out)?;
                put_verdict(verdict, out)
            }
            Followed::Changes(follower) => put_verdict(follower.receive(piece).err(), out),
        }
    }

    /// The verdict of a follower whose stream ends.
    fn finish(&mut self) -> Verdict {
        match self {
            Followed::Text(follower, _) => follower.finish(),
            Followed::Changes(follower) => follower.finish(),
        }
    }

    /// The next request.
    fn again(&mut self) -> Result<Vec<u8>, Verdict> {
        match self {
            Followed::Text(follower, _) => follower.again(),
            Followed::Changes(follower) => follower.again(),
        }
    }

    /// The acknowledgements that are due.
    fn acks(&mut self) -> Vec<u8> {
        match self {
            Followed::Text(follower, _) => follower.acks(),
            Followed::Changes(follower) => follower.acks(),
        }
    }

    /// Appends what a follower of values lends: all that it has, or one transaction.
    fn put_lent(&mut self, alloc: Global, is_all: bool, out: &mut Vec<u8>) -> Result<(), Fault> {
        let Followed::Changes(follower) = self else {
            return Err(Fault::NoCase);
        };
        while put_next(alloc, follower, out)? && is_all {
            put_text(", ", out)?;
        }
        Ok(())
    }
}

/// Starts a follower: `text`, `text_semi`, `changes` or `changes_semi`.
fn started<F: Fn(&[u8]) -> u32>(
    alloc: Global,
    kind: &str,
    name: &[u8],
    limit: usize,
    checksum: F,
) -> Result<(Followed<F>, Vec<u8>), RequestError> {
    match kind {
        "text" => {
            let (follower, request) = Follower::start(alloc, 4, 1, name, limit, checksum)?;
            Ok((Followed::Text(follower, Vec::new(alloc)), request))
        }
        "text_semi" => {
            let (follower, request) = Follower::start_semi(alloc, 4, 1, name, limit, checksum)?;
            Ok((Followed::Text(follower, Vec::new(alloc)), request))
        }
        "changes" => {
            let (follower, request) = ChangeFollower::start(alloc, 4, 1, name, limit, checksum)?;
            Ok((Followed::Changes(follower), request))
        }
        _ => {
            let (follower, request) = ChangeFollower::start_semi(
                alloc, 4, 1, name, limit, checksum,
            )?;
            Ok((Followed::Changes(follower), request))
        }
    }
}

/// The part of bytes that `FROM..TO` names; all of them if it is empty.
fn part_of<'b>(bytes: &'b [u8], range: &str) -> Result<&'b [u8], Fault> {
    let Some((from, to)) = range.split_once("..") else {
        return if range.is_empty() {
            Ok(bytes)
        } else {
            Err(Fault::NoCase)
        };
    };
    let (from, to) = (number_of(from)? as usize, number_of(to)? as usize);
    bytes.get(from..to).ok_or(Fault::NoCase)
}

/// Appends what a step of a script returns. The steps are:
///
/// - `answer`, `answer:FROM..TO`: the follower is given the answer to its newest request, or a part of it;
/// - `give:BYTES`: it is given these bytes;
/// - `next`, `rest`: a follower of values lends the next transaction, or each until there is none;
/// - `again`: its next request, `acks`: the acknowledgements that are due, `finish`: its verdict;
/// - `log:LENGTH`: the server's log has this length from now on.
fn put_step<F: Fn(&[u8]) -> u32>(
    alloc: Global,
    step: &str,
    server: &mut Server<'_>,
    follower: &mut Followed<F>,
    out: &mut Vec<u8>,
) -> Result<(), Fault> {
    let (name, argument) = step.split_once(':').unwrap_or((step, ""));
    match name {
        "answer" => {
            let (answer, _) = server.answer(alloc);
            follower.put_given(part_of(&answer, argument)?, out)
        }
        "give" => follower.put_given(&bytes_of(alloc, argument)?, out),
        "next" | "rest" => follower.put_lent(alloc, name == "rest", out),
        "again" => match follower.again() {
            Ok(question) => {
                server.request = question;
                server.put_request(alloc, out)
            }
            Err(verdict) => put_verdict(Some(verdict), out),
        },
        "acks" => put_bytes(&follower.acks(), out),
        "finish" => put_verdict(Some(follower.finish()), out),
        "log" => {
            server.len = number_of(argument)? as usize;
            put_text(step, out)
        }
        _ => Err(Fault::NoCase),
    }
}

/// A server of a log with this name, and the first request for it.
fn server_of<'a>(
    kind: &str,
    name: &'a [u8],
    log: &'a [u8],
    limit: usize,
    request: Vec<u8>,
) -> Server<'a> {
    Server {
        name,
        log,
        len: log.len(),
        limit,
        is_semi: kind.ends_with("semi"),
        request,
    }
}

/// `follower KIND LIMIT NAME LOG STEP..`: what each step returns.
fn put_script(alloc: Global, arguments: &[&str], out: &mut Vec<u8>) -> Result<(), Fault> {
    let [kind, limit, name, log, steps @ ..] = arguments else {
        return Err(Fault::NoCase);
    };
    let (name, log) = (bytes_of(alloc, name)?, bytes_of(alloc, log)?);
    let limit = number_of(limit)? as usize;
    let (mut follower, request) = match started(alloc, kind, &name, limit, crc32) {
        Ok(started) => started,
        Err(fault) => return put_text(fault.name(), out),
    };
    let mut server = server_of(kind, &name, &log, limit, request);
    server.put_request(alloc, out)?;
    for step in steps {
        put_text(" | ", out)?;
        put_step(alloc, step, &mut server, &mut follower, out)?;
    }
    Ok(())
}

/// Gives a follower bytes, and appends only what it shows of them: a text, or what it lends until there is none.
fn put_shown<F: Fn(&[u8]) -> u32>(
    alloc: Global,
    follower: &mut Followed<F>,
    piece: &[u8],
    out: &mut Vec<u8>,
) -> Result<(), Fault> {
    match follower {
        Followed::Text(follower, text) => {
            text.clear();
            let _verdict = follower.feed(piece, &mut Watched::new(&mut *text));
            put_line(text, out)
        }
        Followed::Changes(follower) => {
            let _verdict = follower.receive(piece);
            while let Ok(true) = follower.advance() {
                put_transaction(alloc, follower.transaction(), out)?;
                out.push(b' ')?;
            }
            Ok(())
        }
    }
}

/// Appends the text of a stream in pieces of these lengths and then in single bytes, its verdict and its acknowledgements.
fn put_cut(
    alloc: Global,
    kind: &str,
    limit: usize,
    stream: &[u8],
    pieces: &[usize],
    out: &mut Vec<u8>,
) -> Result<(), Fault> {
    let Ok((mut follower, _)) = started(alloc, kind, b"m", limit, crc32) else {
        return Err(Fault::NoCase);
    };
    let mut rest = stream;
    for piece in pieces {
        let (piece, after) = rest.split_at((*piece).min(rest.len()));
        put_shown(alloc, &mut follower, piece, out)?;
        rest = after;
    }
    for byte in rest {
        put_shown(alloc, &mut follower, &[*byte], out)?;
    }
    put_verdict(Some(follower.finish()), out)?;
    put_text(" acks ", out)?;
    put_bytes(&follower.acks(), out)
}

/// `stream KIND LIMIT STREAM`: its text, its verdict and its acknowledgements, which must be the same in any pieces.
fn put_stream(alloc: Global, arguments: &[&str], out: &mut Vec<u8>) -> Result<(), Fault> {
    let [kind, limit, stream] = arguments else {
        return Err(Fault::NoCase);
    };
    let (limit, stream) = (number_of(limit)? as usize, bytes_of(alloc, stream)?);
    put_cut(alloc, kind, limit, &stream, &[], out)?;
    let cuttings: [&[usize]; 4] = [&[usize::MAX], &[3, 1, 40, 0, 7], &[43, 42, 41], &[7; 39]];
    for pieces in cuttings {
        let mut same = Vec::new(alloc);
        put_cut(alloc, kind, limit, &stream, pieces, &mut same)?;
        if same != *out {
            put_text(" but in pieces ", out)?;
            out.extend_from_slice(&same)?;
        }
    }
    Ok(())
}

/// `each_byte KIND LIMIT STREAM`: what is shown with which byte, and with which the stream has a verdict.
fn put_each_byte(alloc: Global, arguments: &[&str], out: &mut Vec<u8>) -> Result<(), Fault> {
    let [kind, limit, stream] = arguments else {
        return Err(Fault::NoCase);
    };
    let (limit, stream) = (number_of(limit)? as usize, bytes_of(alloc, stream)?);
    let Ok((mut follower, _)) = started(alloc, kind, b"m", limit, crc32) else {
        return Err(Fault::NoCase);
    };
    let mut number = 0u64;
    for byte in stream {
        number = number.saturating_add(1);
        let mut shown = Vec::new(alloc);
        follower.put_given(&[byte], &mut shown)?;
        if shown.as_slice() != b"open".as_slice() {
            put_comma(out)?;
            done(write!(out, "{number} "))?;
            out.extend_from_slice(&shown)?;
        }
    }
    Ok(())
}

/// `serve KIND LIMIT NAME LOG`: how serving ended, and the answer.
fn put_served(alloc: Global, arguments: &[&str], out: &mut Vec<u8>) -> Result<(), Fault> {
    let [kind, limit, name, log] = arguments else {
        return Err(Fault::NoCase);
    };
    let (name, log) = (bytes_of(alloc, name)?, bytes_of(alloc, log)?);
    let Ok(asked) = request(alloc, 4, 1, &name) else {
        return Err(Fault::NoCase);
    };
    let server = server_of(kind, &name, &log, number_of(limit)? as usize, asked);
    let (answer, served) = server.answer(alloc);
    put_text(served.name(), out)?;
    out.push(b' ')?;
    put_bytes(&answer, out)
}

/// Appends the result of a call for followers and servers.
pub(crate) fn put_followed(
    alloc: Global,
    call: &str,
    arguments: &[&str],
    out: &mut Vec<u8>,
) -> Result<(), Fault> {
    match call {
        "follower" => put_script(alloc, arguments, out),
        "stream" => put_stream(alloc, arguments, out),
        "each_byte" => put_each_byte(alloc, arguments, out),
        "serve" => put_served(alloc, arguments, out),
        _ => Err(Fault::NoCase),
    }
}
