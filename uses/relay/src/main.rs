//! A relay: receives a server's answer to a dump request for position 4, and serves the same log to replicas.
//!
//! usage: relay POSITION.. <ANSWER
//!
//! Each POSITION stands for a replica that asks for the events from there on. The relay prints how many bytes it sends to each, which
//! it knows before it sends them.
#![tactic(auto)]

ghost use Rattle.std.specs.Prelude.{◌≡◌, ◌∷◌, ℕ, length};
ghost use Rattle.mysql_wire.specs.Framing.{framing};

use binlog_feed::laws::lengths_of_packets;
use binlog_feed::{Refusal, Served, Watched, crc32, request, serve};
use mysql_wire::{BytesMut, PacketCodec, PacketCodecError};
use std::alloc::{AllocError, Global};
use std::env;
use std::io::{ErrorKind, Read};
use std::process::ExitCode;
use std::rt::Env;

/// The length of the longest payload to accept and to send: that of the servers' setting `max_allowed_packet`.
const LIMIT: usize = 1_073_741_824;

/// The length of the payload of a packet's longest chunk, and of a chunk's header.
const MAX_CHUNK_LEN: usize = 16_777_215;

const CHUNK_HEADER_LEN: usize = 4;

/// The length of the packet that ends an answer.
const CLOSING_PACKET_LEN: u64 = 9;

/// The name of the log.
const NAME: &[u8] = b"binlog.000042";

/// Where an event of a log is, and the length of its packet.
#[derive(Clone, Copy)]
struct Sent {
    position: u64,
    packet_len: u64,
}

/// A log as far as it was received.
#[derive(Drop)]
struct Relay {
    alloc: Global,
    log: Vec<u8>,
    events: Vec<Sent>,
}

/// The length of an event's packet: a zero byte, the event, and the header of each chunk.
fn packet_len(event: &[u8]) -> usize
    ensures { (k : ℕ) → result ≡ length (framing k (0 ∷ event.now)) }
{
    lengths_of_packets();
    let payload_len = event.len() + 1;
    payload_len + CHUNK_HEADER_LEN * (payload_len / MAX_CHUNK_LEN + 1)
}

impl Relay {
    /// A log without events.
    fn new(alloc: Global) -> Result<Relay, AllocError> {
        Ok(Relay {
            alloc,
            log: Vec::from_slice(alloc, b"\xfebin")?,
            events: Vec::new(alloc),
        })
    }

    /// Takes the payload of a packet. Returns whether it has an event; else the answer has ended.
    fn take(&mut self, payload: &[u8]) -> Result<bool, AllocError> {
        let Some((0, event)) = payload.split_first() else {
            return Ok(false);
        };
        let position = self.log.len() as u64;
        self.events.push(Sent {
            position,
            packet_len: packet_len(event) as u64,
        })?;
        self.log.extend_from_slice(event)?;
        Ok(true)
    }

    /// Takes the packets that are complete. Returns whether the answer goes on.
    fn take_packets(
        &mut self,
        codec: &mut PacketCodec,
        received: &mut BytesMut,
        payload: &mut Vec<u8>,
    ) -> Result<bool, PacketCodecError> {
        for _ in 0..u64::MAX {
            if !codec.decode(received, payload)? {
                break;
            }
            if !self.take(payload)? {
                return Ok(false);
            }
            payload.clear();
        }
        Ok(true)
    }

    /// Receives an answer: the packets of a server, whose numbers begin at 1.
    fn receive<R: Read + Drop>(&mut self, mut answer: R) -> Result<(), PacketCodecError> {
        let mut codec = PacketCodec::with_number(LIMIT, 1);
        let mut received = BytesMut::new(self.alloc);
        let mut payload = Vec::new(self.alloc);
        let mut piece = [0u8; 4096];
        for _ in 0..u64::MAX {
            let len = match answer.read(&mut piece) {
                Ok(0) => break,
                Ok(len) => len,
                Err(error) if error.kind() == ErrorKind::Interrupted => continue,
                Err(_) => break,
            };
            received.extend_from_slice(&piece[..len])?;
            if !self.take_packets(&mut codec, &mut received, &mut payload)? {
                break;
            }
        }
        Ok(())
    }

    /// The number of bytes that answer a request for the events from a position on: the first event, which is the format description,
    /// those from the position on, and the closing packet.
    fn answer_len(&self, position: u64) -> u64 {
        let mut len = CLOSING_PACKET_LEN;
        for (index, event) in self.events.iter().enumerate() {
            if index == 0 || event.position >= position {
                len = len.saturating_add(event.packet_len);
            }
        }
        len
    }

    /// Answers a request.
    fn serve(&self, request: &[u8], answer: &mut Watched<Vec<u8>>) -> Served {
        let mut log = Watched::new(self.log.as_slice());
        serve(self.alloc, request, NAME, LIMIT, &mut log, &crc32, answer)
    }
}

/// Serves a replica that asks from a position on, and prints a line.
fn serve_replica(rt: &HostRuntime, relay: &Relay, position: u32) -> Result<(), &'static str> {
    let request = request(rt.alloc(), position, 7, NAME).map_err(|error| error.name())?;
    let mut answer = Watched::new(Vec::new(rt.alloc()));
    match relay.serve(&request, &mut answer) {
        Served::Whole => {}
        Served::Refused(Refusal::Place) => return Err("no event begins at the position"),
        served => return Err(served.name()),
    }
    let (len, sent) = (
        relay.answer_len(u64::from(position)),
        answer.into_inner().len(),
    );
    let line = println!(rt; "from {position}: {len} bytes, and {sent} were sent");
    line.map_err(|_| "Write")
}

/// Runs the program. The error is what it prints.
fn run(rt: &HostRuntime) -> Result<(), &'static str> {
    let words = env::args(rt).map_err(|_| "Usage")?;
    let words: Vec<String> = words.skip(1).collect(rt.alloc()).map_err(|_| "Memory")?;
    let mut relay = Relay::new(rt.alloc()).map_err(|_| "Memory")?;
    relay
        .receive(rt.reader())
        .map_err(|_| "the answer is damaged")?;
    for word in &words {
        let position = word.as_str().parse::<u32>().map_err(|_| "Usage")?;
        serve_replica(rt, &relay, position)?;
    }
    Ok(())
}

fn main(rt: HostRuntime) -> ExitCode {
    match run(&rt) {
        Ok(()) => ExitCode::SUCCESS,
        Err(word) => {
            let _ = eprintln!(&rt; "relay: {word}");
            ExitCode::FAILURE
        }
    }
}
