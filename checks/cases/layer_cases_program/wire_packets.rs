//! Packets: their framing, reading them from pieces of a stream, and their chunks.

use crate::wire_words::{len_of, put_long_bytes, put_long_rest};
use crate::words::{Fault, byte_of, bytes_of, done, put_number, put_text};
use bytes::BytesMut;
use std::alloc::Global;
use std::io::Write;
use wire_constants::DEFAULT_MAX_ALLOWED_PACKET;
use wire_fields::split_version;
use wire_packets::{
    ChunkDecoder, ChunkInfo, PACKET_HEADER_LEN, PacketCodec, PacketCodecError, decode_pieces,
    packet_to_chunks,
};

/// The codec with this limit, or the default one, and this first sequence id.
fn codec_of(limit: &str, number: &str) -> Result<PacketCodec, Fault> {
    let number = byte_of(number)?;
    let mut codec = match number {
        0 => PacketCodec::default(),
        _ => PacketCodec::with_number(DEFAULT_MAX_ALLOWED_PACKET, number),
    };
    if limit != "default" {
        codec.max_allowed_packet = len_of(limit)?;
    }
    Ok(codec)
}

/// The bytes of each word.
fn all_bytes_of(alloc: Global, words: &[&str]) -> Result<Vec<Vec<u8>>, Fault> {
    let mut all = Vec::new(alloc);
    for word in words {
        all.push(bytes_of(alloc, word)?)?;
    }
    Ok(all)
}

/// Appends the error of a codec.
fn put_fault(fault: PacketCodecError, out: &mut Vec<u8>) -> Result<(), Fault> {
    done(write!(out, "{fault:?}"))
}

/// Appends the framing of one more payload, and a remark if `packet_to_chunks` with the number gives another one; returns the
/// next number.
fn put_framed(
    alloc: Global,
    codec: &mut PacketCodec,
    number: u8,
    payload: &[u8],
    out: &mut Vec<u8>,
) -> Result<u8, Fault> {
    let (mut framed, mut chunks) = (BytesMut::new(alloc), BytesMut::new(alloc));
    if let Err(fault) = codec.encode(payload, &mut framed) {
        put_fault(fault, out)?;
        return Ok(number);
    }
    put_long_bytes(framed.as_slice(), out)?;
    let Ok(next) = packet_to_chunks(number, payload, &mut chunks) else {
        return Err(Fault::NoCase);
    };
    if chunks.as_slice() != framed.as_slice() {
        put_text(" otherwise by packet_to_chunks", out)?;
    }
    Ok(next)
}

/// `framing LIMIT NUMBER PAYLOAD ..`: the framing of each payload, by a codec with this limit, beginning with this sequence id,
/// and the next sequence id.
pub(crate) fn put_framings(
    alloc: Global,
    arguments: &[&str],
    out: &mut Vec<u8>,
) -> Result<(), Fault> {
    let [limit, number, payloads @ ..] = arguments else {
        return Err(Fault::NoCase);
    };
    let (mut codec, mut next) = (codec_of(limit, number)?, byte_of(number)?);
    for word in payloads {
        let payload = bytes_of(alloc, word)?;
        next = put_framed(alloc, &mut codec, next, &payload, out)?;
        out.push(b' ')?;
    }
    put_text("next ", out)?;
    put_number(u64::from(next), out)
}

/// The packets that a codec has read, the error that ended them, and the bytes that are left.
#[derive(Drop)]
struct Read {
    packets: Vec<Vec<u8>>,
    fault: Option<PacketCodecError>,
    rest: BytesMut,
}

/// Keeps the error; returns whether the codec returns it again, with nothing taken or lent.
fn is_kept(
    codec: &mut PacketCodec,
    read: &mut Read,
    packet: &mut Vec<u8>,
    fault: PacketCodecError,
) -> Result<bool, Fault> {
    read.fault = Some(fault);
    let (left, taken) = (read.rest.len(), packet.len());
    let is_again = codec.decode(&mut read.rest, packet) == Err(fault)
        && read
            .rest
            .extend_from_slice(b"\x08\x09\0\0\0\x01\0\0\0\0")
            .is_ok()
        && codec.decode(&mut read.rest, packet) == Err(fault)
        && codec.decode_in_place(b"\0\0\0\0") == None
        && read.rest.len() == left.saturating_add(10)
        && packet.len() == taken;
    read.rest.truncate(left);
    Ok(is_again)
}

/// Takes the packets of one more piece with `decode`, each of which may first be lent by `decode_in_place`; returns whether the
/// codec keeps its error.
fn take_piece(
    alloc: Global,
    codec: &mut PacketCodec,
    is_lent: bool,
    read: &mut Read,
    packet: &mut Vec<u8>,
) -> Result<bool, Fault> {
    for _ in 0..=read.rest.len() {
        if is_lent {
            if let Some(payload) = codec.decode_in_place(read.rest.as_slice()) {
                let len = PACKET_HEADER_LEN + payload.len();
                read.packets.push(Vec::from_slice(alloc, payload)?)?;
                read.rest.advance(len);
                continue;
            }
        }
        match codec.decode(&mut read.rest, packet) {
            Ok(true) => {
                read.packets.push(Vec::from_slice(alloc, packet)?)?;
                packet.clear();
            }
            Ok(false) => return Ok(true),
            Err(fault) => return is_kept(codec, read, packet, fault),
        }
    }
    Ok(true)
}

/// The packets of the pieces, taken as each piece arrives, with a remark if the error isn't kept.
fn read_pieces(
    alloc: Global,
    mut codec: PacketCodec,
    is_lent: bool,
    pieces: &[Vec<u8>],
    out: &mut Vec<u8>,
) -> Result<Read, Fault> {
    let mut packet = Vec::new(alloc);
    let mut read = Read {
        packets: Vec::new(alloc),
        fault: None,
        rest: BytesMut::new(alloc),
    };
    for piece in pieces {
        read.rest.extend_from_slice(piece)?;
        if !take_piece(alloc, &mut codec, is_lent, &mut read, &mut packet)? {
            put_text("not the same error again ", out)?;
        }
        if read.fault.is_some() {
            break;
        }
    }
    if !packet.is_empty() {
        put_text("begun ", out)?;
        put_long_bytes(&packet, out)?;
        out.push(b' ')?;
    }
    Ok(read)
}

/// Appends the packets, the error, and the bytes that are left.
fn put_packets(read: &Read, out: &mut Vec<u8>) -> Result<(), Fault> {
    for packet in &read.packets {
        put_long_bytes(packet, out)?;
        out.push(b' ')?;
    }
    match read.fault {
        Some(fault) => put_fault(fault, out)?,
        None => put_text("end", out)?,
    }
    put_long_rest(read.rest.as_slice(), out)
}

/// Whether `decode_pieces` gives the same packets and the same error.
fn are_pieces_same(
    alloc: Global,
    mut codec: PacketCodec,
    pieces: &[Vec<u8>],
    read: &Read,
) -> Result<bool, Fault> {
    let mut slices: Vec<&[u8]> = Vec::new(alloc);
    for piece in pieces {
        slices.push(piece.as_slice())?;
    }
    let (packets, fault) = decode_pieces(alloc, &mut codec, &slices);
    Ok(packets == read.packets && fault == read.fault)
}

/// `packets LIMIT NUMBER PIECE ..`: the payloads of the packets in a stream that arrives in these pieces, with this limit and
/// this first sequence id; the error, or `end`; and the bytes that are left. `decode`, `decode_in_place` and `decode_pieces`
/// must agree, and an error must be returned again, with nothing taken.
pub(crate) fn put_of_packets(
    alloc: Global,
    arguments: &[&str],
    out: &mut Vec<u8>,
) -> Result<(), Fault> {
    let [limit, number, words @ ..] = arguments else {
        return Err(Fault::NoCase);
    };
    let pieces = all_bytes_of(alloc, words)?;
    let read = read_pieces(alloc, codec_of(limit, number)?, false, &pieces, out)?;
    let mut remarks = Vec::new(alloc);
    let lent = read_pieces(alloc, codec_of(limit, number)?, true, &pieces, &mut remarks)?;
    if lent.packets != read.packets
        || lent.fault != read.fault
        || lent.rest.as_slice() != read.rest.as_slice()
    {
        put_text("otherwise by decode_in_place ", out)?;
    }
    if !are_pieces_same(alloc, codec_of(limit, number)?, &pieces, &read)? {
        put_text("otherwise by decode_pieces ", out)?;
    }
    put_packets(&read, out)
}

/// `lent LIMIT NUMBER BYTES ..`: the payload that each buffer lends, or `none`, one buffer after the other. The words `reset`
/// and `sync` call `reset_seq_id` and `sync_seq_id`; a word that begins with `decode:` takes a packet with `decode`.
pub(crate) fn put_lent(alloc: Global, arguments: &[&str], out: &mut Vec<u8>) -> Result<(), Fault> {
    let [limit, number, words @ ..] = arguments else {
        return Err(Fault::NoCase);
    };
    let mut codec = codec_of(limit, number)?;
    for word in words {
        match *word {
            "reset" => codec.reset_seq_id(),
            "sync" => codec.sync_seq_id(),
            _ => put_next(alloc, &mut codec, word, out)?,
        }
    }
    Ok(())
}

/// Appends the payload that the buffer lends, or that `decode` takes from it, or the error, or `none`.
fn put_next(
    alloc: Global,
    codec: &mut PacketCodec,
    word: &str,
    out: &mut Vec<u8>,
) -> Result<(), Fault> {
    if !out.is_empty() {
        out.push(b' ')?;
    }
    let Some(word) = word.strip_prefix("decode:") else {
        return match codec.decode_in_place(&bytes_of(alloc, word)?) {
            Some(payload) => put_long_bytes(payload, out),
            None => put_text("none", out),
        };
    };
    let (mut src, mut packet) = (BytesMut::new(alloc), Vec::new(alloc));
    src.extend_from_slice(&bytes_of(alloc, word)?)?;
    match codec.decode(&mut src, &mut packet) {
        Ok(true) => put_long_bytes(&packet, out)?,
        Ok(false) => put_text("none", out)?,
        Err(fault) => put_fault(fault, out)?,
    }
    put_long_rest(src.as_slice(), out)
}

/// Appends what one call of a chunk decoder gives, the bytes that it appends, and how many are left; returns whether there may be
/// more.
fn put_chunk(
    decoder: &mut ChunkDecoder,
    limit: usize,
    src: &mut BytesMut,
    gathered: &mut Vec<u8>,
    out: &mut Vec<u8>,
) -> Result<bool, Fault> {
    let before = gathered.len();
    let decoded = decoder.decode(src, gathered, limit);
    let (name, number) = match decoded {
        Ok(Some(ChunkInfo::Middle(number))) => ("middle ", number),
        Ok(Some(ChunkInfo::Last(number))) => ("last ", number),
        Ok(None) => return Ok(false),
        Err(fault) => {
            put_fault(fault, out)?;
            out.push(b' ')?;
            return Ok(false);
        }
    };
    put_text(name, out)?;
    put_number(u64::from(number), out)?;
    out.push(b' ')?;
    put_long_bytes(gathered.get(before..).unwrap_or(b""), out)?;
    done(write!(out, " left {} ", src.len()))?;
    if *decoder != ChunkDecoder::Idle {
        put_text("not idle ", out)?;
    }
    Ok(true)
}

/// The decoder of a word: `idle`, or the sequence id and the number of bytes of a chunk whose header was read.
fn decoder_of(word: &str) -> Result<ChunkDecoder, Fault> {
    match word.split_once(':') {
        Some((number, needed)) => Ok(ChunkDecoder::Chunk {
            seq_id: byte_of(number)?,
            needed: len_of(needed)?,
        }),
        None if word == "idle" => Ok(ChunkDecoder::Idle),
        None => Err(Fault::NoCase),
    }
}

/// `chunks DECODER LIMIT PIECE ..`: the chunks of a stream that arrives in these pieces: whether each is the last one of its
/// packet, its sequence id, its payload and how many bytes are left; the error; the state of the decoder afterwards; and the
/// bytes that are left then.
pub(crate) fn put_chunks(
    alloc: Global,
    arguments: &[&str],
    out: &mut Vec<u8>,
) -> Result<(), Fault> {
    let [decoder, limit, pieces @ ..] = arguments else {
        return Err(Fault::NoCase);
    };
    let (mut decoder, limit) = (decoder_of(decoder)?, len_of(limit)?);
    let (mut src, mut gathered) = (BytesMut::new(alloc), Vec::new(alloc));
    for word in pieces {
        src.extend_from_slice(&bytes_of(alloc, word)?)?;
        for _ in 0..=src.len() {
            if !put_chunk(&mut decoder, limit, &mut src, &mut gathered, out)? {
                break;
            }
        }
    }
    match decoder {
        ChunkDecoder::Idle => put_text("idle", out)?,
        ChunkDecoder::Chunk { seq_id, needed } => done(write!(out, "{seq_id}:{needed}"))?,
    }
    put_long_rest(src.as_slice(), out)
}

/// `version TEXT`: the three numbers of a server's version.
pub(crate) fn put_version(
    alloc: Global,
    arguments: &[&str],
    out: &mut Vec<u8>,
) -> Result<(), Fault> {
    let [text] = arguments else {
        return Err(Fault::NoCase);
    };
    let (major, minor, patch) = split_version(&bytes_of(alloc, text)?);
    done(write!(out, "{major} {minor} {patch}"))
}
