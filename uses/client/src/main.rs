//! A reader of packets for a full client: logs in to a server, runs a query, and prints the names of the columns and the rows.
//!
//! usage: client USER QUERY <BYTES
//!
//! Standard input has what a server sends, and what the client sends goes into a buffer: put your socket in place of both. The user
//! has no password.
#![tactic(auto)]

use mysql_wire::{
    BytesMut, Command, LeU32, MySerialize, NullBytes, PacketCodec, PacketCodecError, ParseBuf,
    RawBytes, RawInt, Skip, U8Bytes, WireFault,
};
use std::alloc::{AllocError, Global};
use std::env;
use std::io::{self, ErrorKind, Read, Write};
use std::process::ExitCode;
use std::rt::Env;

/// What the client knows: long passwords, the protocol of 4.1, and passwords by plugins.
const CAPABILITIES: u32 = 0x1 | 0x200 | 0x8000 | 0x80000;

/// The number of the character set utf8mb4.
const UTF8MB4: u8 = 45;

/// The length of the longest payload to accept and to send.
const LIMIT: usize = 16_777_216;

/// The first byte of a payload: of OK, an error, the end of rows, and of a NULL in a row.
const OK: u8 = 0;

const ERROR: u8 = 0xff;

const END: u8 = 0xfe;

const NULL: u8 = 0xfb;

/// Why the client stopped.
#[derive(Debug, Drop)]
enum ClientError {
    /// A packet is too long or has a wrong number, or out of memory.
    Packets(PacketCodecError),
    /// The connection dropped.
    Closed,
    /// The server rejected the login or the query.
    Rejected,
    /// A payload isn't of the expected format.
    Format,
}

impl From<PacketCodecError> for ClientError {
    fn from(error: PacketCodecError) -> ClientError {
        ClientError::Packets(error)
    }
}

impl From<AllocError> for ClientError {
    fn from(_: AllocError) -> ClientError {
        ClientError::Packets(PacketCodecError::Memory)
    }
}

impl From<WireFault> for ClientError {
    fn from(_: WireFault) -> ClientError {
        ClientError::Format
    }
}

/// A connection: packets in both directions, with one sequence of numbers.
#[derive(Drop)]
struct Connection<R: Read + Drop> {
    alloc: Global,
    reader: R,
    codec: PacketCodec,
    /// The bytes that were received and not yet taken.
    received: BytesMut,
    /// The bytes to send.
    sent: BytesMut,
    /// The payload of the newest packet.
    payload: Vec<u8>,
}

impl<R: Read + Drop> Connection<R> {
    /// A connection before the server's greeting.
    fn new(alloc: Global, reader: R) -> Connection<R> {
        Connection {
            alloc,
            reader,
            codec: PacketCodec::with_number(LIMIT, 0),
            received: BytesMut::new(alloc),
            sent: BytesMut::new(alloc),
            payload: Vec::new(alloc),
        }
    }

    /// Receives the next packet: its payload is `payload` then.
    fn receive(&mut self) -> Result<(), ClientError> {
        self.payload.clear();
        let mut piece = [0u8; 4096];
        for _ in 0..u64::MAX {
            if self.codec.decode(&mut self.received, &mut self.payload)? {
                break;
            }
            match self.reader.read(&mut piece) {
                Ok(0) => return Err(ClientError::Closed),
                Ok(len) => self.received.extend_from_slice(&piece[..len])?,
                Err(error) if error.kind() == ErrorKind::Interrupted => {}
                Err(_) => return Err(ClientError::Closed),
            }
        }
        match self.payload.first() {
            Some(&ERROR) => Err(ClientError::Rejected),
            _ => Ok(()),
        }
    }

    /// Sends a command: its packets begin a sequence of numbers.
    fn command(&mut self, command: Command, words: &[u8]) -> Result<(), ClientError> {
        let mut payload = Vec::from_slice(self.alloc, &[command as u8])?;
        payload.extend_from_slice(words)?;
        self.codec.reset_seq_id();
        Ok(self.codec.encode(&payload, &mut self.sent)?)
    }

    /// Answers the greeting: logs in without a password.
    fn log_in(&mut self, user: &[u8]) -> Result<(), ClientError> {
        self.receive()?;
        let mut payload = Vec::new(self.alloc);
        RawInt::<LeU32>::new(CAPABILITIES).serialize(&mut payload)?;
        RawInt::<LeU32>::new(LIMIT as u32).serialize(&mut payload)?;
        RawInt::<u8>::new(UTF8MB4).serialize(&mut payload)?;
        Skip::<23>.serialize(&mut payload)?;
        RawBytes::<NullBytes>::from(user).serialize(&mut payload)?;
        RawBytes::<U8Bytes>::from(b"".as_slice()).serialize(&mut payload)?;
        RawBytes::<NullBytes>::from(b"mysql_native_password".as_slice()).serialize(&mut payload)?;
        self.codec.encode(&payload, &mut self.sent)?;
        self.receive()?;
        match self.payload.first() {
            Some(&OK) => Ok(()),
            _ => Err(ClientError::Rejected),
        }
    }

    /// Whether the newest packet ends the columns or the rows.
    fn is_end(&self) -> bool {
        self.payload.first() == Some(&END) && self.payload.len() < 9
    }

    /// Runs a query: appends a line of the columns' names and a line for each row to `out`.
    fn query(&mut self, query: &[u8], out: &mut Vec<u8>) -> Result<(), ClientError> {
        self.command(Command::COM_QUERY, query)?;
        self.receive()?;
        let count = ParseBuf(&self.payload)
            .checked_eat_lenenc_int()
            .ok_or(ClientError::Format)?;
        for index in 0..count {
            self.receive()?;
            put_separator(index, out)?;
            put_name(&self.payload, out)?;
        }
        out.extend_from_slice(b"\n")?;
        self.receive()?;
        for _ in 0..u64::MAX {
            self.receive()?;
            if self.is_end() {
                break;
            }
            put_row(&self.payload, count, out)?;
        }
        Ok(())
    }
}

/// Appends the name of a column: the fifth string of its definition, after its catalog, database, table and original table.
fn put_name(definition: &[u8], out: &mut Vec<u8>) -> Result<(), ClientError> {
    let mut fields = ParseBuf(definition);
    for _ in 0..4 {
        fields.checked_eat_lenenc_str().ok_or(ClientError::Format)?;
    }
    Ok(out.extend_from_slice(fields.checked_eat_lenenc_str().ok_or(ClientError::Format)?)?)
}

/// Appends a tab before a column that isn't the first.
fn put_separator(index: u64, out: &mut Vec<u8>) -> Result<(), AllocError> {
    out.extend_from_slice(if index == 0 { b"".as_slice() } else { b"\t" })
}

/// Appends the cells of a row.
fn put_row(row: &[u8], count: u64, out: &mut Vec<u8>) -> Result<(), ClientError> {
    let mut cells = ParseBuf(row);
    for index in 0..count {
        put_separator(index, out)?;
        if cells.0.first() == Some(&NULL) {
            cells.checked_skip(1);
            out.extend_from_slice(b"NULL")?;
        } else {
            out.extend_from_slice(cells.checked_eat_lenenc_str().ok_or(ClientError::Format)?)?;
        }
    }
    Ok(out.extend_from_slice(b"\n")?)
}

/// Logs in and runs a query. The error is what the program prints.
fn run(rt: &HostRuntime) -> Result<(), &'static str> {
    let words = env::args(rt).map_err(|_| "Usage")?;
    let words: Vec<String> = words.skip(1).collect(rt.alloc()).map_err(|_| "Memory")?;
    let [user, query] = words.as_slice() else {
        return Err("Usage");
    };
    let mut connection = Connection::new(rt.alloc(), rt.reader());
    let mut out = Vec::new(rt.alloc());
    let done = connection
        .log_in(user.as_bytes())
        .and_then(|()| { connection.query(query.as_bytes(), &mut out) });
    done.map_err(|error| match error {
        ClientError::Packets(_) => "a packet is too long or out of sequence",
        ClientError::Closed => "the connection dropped",
        ClientError::Rejected => "the server rejected the login or the query",
        ClientError::Format => "a packet has another format",
    })?;
    io::writer(rt).write_all(&out).map_err(|_| "Write")
}

fn main(rt: HostRuntime) -> ExitCode {
    match run(&rt) {
        Ok(()) => ExitCode::SUCCESS,
        Err(word) => {
            let _ = eprintln!(&rt; "client: {word}");
            ExitCode::FAILURE
        }
    }
}
