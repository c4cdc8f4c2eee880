//! Payloads of several chunks, and the examples of the documentation. The other packets are cases of `wire_cases`.

use bytes::BytesMut;
use std::alloc::Global;
use wire_buf::{MySerialize, ParseBuf, WireFault};
use wire_constants::MAX_PAYLOAD_LEN;
use wire_fields::{EofBytes, LeU24, LenEnc, RawBytes, RawInt, Skip, U8Bytes};
use wire_packets::{ChunkDecoder, ChunkInfo, PacketCodec, PacketCodecError, packet_to_chunks};

/// Whether the codec frames the payload as the bytes.
fn frames(alloc: Global, mut codec: PacketCodec, payload: &[u8], bytes: &[u8]) -> bool {
    let mut framed = BytesMut::new(alloc);
    codec.encode(payload, &mut framed).is_ok() && framed.as_slice() == bytes
}

fn chunk_of_a_longer_packet(alloc: Global) -> bool {
    let mut chunks = BytesMut::new(alloc);
    let mut longest = Vec::new(alloc);
    let mut payload = Vec::new(alloc);
    let mut decoder = ChunkDecoder::Idle;
    longest.resize(MAX_PAYLOAD_LEN, 7).is_ok()
        && packet_to_chunks(0, longest.as_slice(), &mut chunks) == Ok(2)
        && decoder.decode(&mut chunks, &mut payload, MAX_PAYLOAD_LEN)
            == Ok(Some(ChunkInfo::Middle(0)))
        && payload.len() == MAX_PAYLOAD_LEN
        && decoder.decode(&mut chunks, &mut payload, MAX_PAYLOAD_LEN)
            == Ok(Some(ChunkInfo::Last(1)))
        && chunks.is_empty()
}

/// A count in three bytes, then a length-encoded integer: the first example of docs/library/WIRE.md.
fn read(alloc: Global, bytes: &[u8]) -> Result<(u32, u64), WireFault> {
    let mut buf = ParseBuf(bytes);
    let count = buf.parse::<RawInt<LeU24>>(alloc, ())?;
    let number = buf.parse::<RawInt<LenEnc>>(alloc, ())?;
    Ok((*count, *number))
}

fn write(out: &mut Vec<u8>, count: u32, number: u64) -> Result<(), WireFault> {
    RawInt::<LeU24>::new(count).serialize(out)?;
    RawInt::<LenEnc>::new(number).serialize(out)
}

fn field_read_and_written(alloc: Global) -> bool {
    let bytes = [2, 0, 0, 0xfc, 0xfb, 0];
    let mut out = Vec::new(alloc);
    read(alloc, &bytes) == Ok((2, 251))
        && write(&mut out, 2, 251).is_ok()
        && out.as_slice() == bytes.as_slice()
        && write(&mut out, 16_777_216, 0) == Err(WireFault::Form)
        && out.as_slice() == bytes.as_slice()
}

/// A name, two bytes without meaning, and the rest: the second example of docs/library/WIRE.md.
fn reads_fields(alloc: Global) -> Result<bool, WireFault> {
    let mut buf = ParseBuf(b"\x02ab\x00\x00cd");
    let name = buf.parse::<RawBytes<'_, U8Bytes>>(alloc, ())?;
    buf.parse::<Skip<2>>(alloc, ())?;
    let rest = buf.parse::<RawBytes<'_, EofBytes>>(alloc, ())?;
    Ok(name.eq_bytes(b"ab") && rest.eq_bytes(b"cd"))
}

fn raw_encodings_read(alloc: Global) -> bool {
    reads_fields(alloc) == Ok(true)
}

/// Reads each packet that is complete as more of a stream arrives: the third example of docs/library/WIRE.md.
fn take(
    codec: &mut PacketCodec,
    src: &mut BytesMut,
    packet: &mut Vec<u8>,
    piece: &[u8],
) -> Result<usize, PacketCodecError> {
    src.extend_from_slice(piece)?;
    let mut packets = 0usize;
    while codec.decode(src, packet)? {
        packets = packets.wrapping_add(1);
        packet.clear();
    }
    Ok(packets)
}

fn packets_taken(alloc: Global) -> bool {
    let mut codec = PacketCodec::default();
    let mut src = BytesMut::new(alloc);
    let mut packet = Vec::new(alloc);
    take(&mut codec, &mut src, &mut packet, &[1, 0, 0]) == Ok(0)
        && take(&mut codec, &mut src, &mut packet, &[0, 7, 0, 0, 0, 1, 9]) == Ok(2)
        && src.as_slice() == [9].as_slice()
}

/// Whether there is memory for the longest payload of a chunk, and for that chunk, with the sequence id 0.
fn begins_full_chunk(payload: &mut Vec<u8>, stream: &mut BytesMut) -> bool {
    payload.resize(MAX_PAYLOAD_LEN, 7).is_ok()
        && stream.extend_from_slice(&[255, 255, 255, 0]).is_ok()
        && stream.extend_from_slice(payload).is_ok()
}

#[test]
fn full_chunk_goes_on(rt: HostRuntime) {
    let mut codec = PacketCodec::with_number(MAX_PAYLOAD_LEN, 0);
    let mut payload = Vec::new(rt.alloc());
    let mut src = BytesMut::new(rt.alloc());
    let mut packet = Vec::new(rt.alloc());
    assert!(rt;
        begins_full_chunk(&mut payload, &mut src)
            && codec.decode(&mut src, &mut packet) == Ok(false)
            && src.is_empty()
            && src.extend_from_slice(&[0, 0, 0, 1]).is_ok()
            && codec.decode(&mut src, &mut packet) == Ok(true)
            && packet == payload
    );
}

#[test]
fn full_chunk_is_written(rt: HostRuntime) {
    let alloc = rt.alloc();
    let mut payload = Vec::new(alloc);
    let mut stream = BytesMut::new(alloc);
    assert!(rt;
        begins_full_chunk(&mut payload, &mut stream)
            && stream.extend_from_slice(&[0, 0, 0, 1]).is_ok()
            && frames(
                alloc,
                PacketCodec::with_number(MAX_PAYLOAD_LEN, 0),
                &payload,
                stream.as_slice()
            )
    );
}

#[test]
fn packets(rt: HostRuntime) {
    let alloc = rt.alloc();
    assert!(rt; chunk_of_a_longer_packet(alloc));
    assert!(rt; field_read_and_written(alloc));
    assert!(rt; raw_encodings_read(alloc));
    assert!(rt; packets_taken(alloc));
}
