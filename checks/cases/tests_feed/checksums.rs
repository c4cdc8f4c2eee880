//! The checksum of bytes: published values and zlib's, and each short length bit by bit.

use bytes::BytesMut;
use crc32::crc32;
use std::alloc::Global;
use crate::samples::{BEGIN, MAP, ROWS, XID};
use wire_packets::PacketCodec;

/// The CRC-32 of bytes, bit by bit.
fn bit_by_bit(bytes: &[u8]) -> u32 {
    let mut register = u32::MAX;
    for byte in bytes {
        register ^= u32::from(*byte);
        for _ in 0..8 {
            let shifted = register >> 1;
            register = if register % 2 == 1 {
                shifted ^ 0xedb8_8320
            } else {
                shifted
            };
        }
    }
    !register
}

/// Whether a new codec frames the payload as these bytes.
fn frames(alloc: Global, payload: &[u8], bytes: &[u8]) -> bool {
    let mut codec = PacketCodec::default();
    let mut framed = BytesMut::new(alloc);
    codec.encode(payload, &mut framed).is_ok() && framed.as_slice() == bytes
}

fn codec_framings_and_crc(alloc: Global) -> bool {
    frames(alloc, b"123", &[3, 0, 0, 0, 0x31, 0x32, 0x33])
        && frames(alloc, b"", &[0, 0, 0, 0])
        && crc32(b"123456789") == 0xcbf4_3926
}

fn published_checksums() -> bool {
    crc32(b"") == 0
        && crc32(b"123456789") == 0xcbf4_3926
        && crc32(b"The quick brown fox jumps over the lazy dog") == 0x414f_a339
}

fn checksums_of_events_by_zlib() -> bool {
    crc32(&BEGIN) == 0x30dc_be28
        && crc32(&MAP) == 0xcc3c_c388
        && crc32(&ROWS) == 0xeb5c_239e
        && crc32(&XID) == 0xcad6_397d
}

fn checksums_of_each_short_length() -> bool {
    let mut bytes = [0u8; 40];
    let mut byte = 0x9du8;
    for position in bytes.iter_mut() {
        byte = byte.wrapping_mul(5).wrapping_add(37);
        *position = byte;
    }
    for len in 0..41 {
        let (prefix, _) = bytes.split_at(len);
        if crc32(prefix) != bit_by_bit(prefix) {
            return false;
        }
    }
    true
}

#[test]
fn checksums(rt: HostRuntime) {
    let alloc = rt.alloc();
    assert!(rt; codec_framings_and_crc(alloc));
    assert!(rt; published_checksums());
    assert!(rt; checksums_of_events_by_zlib());
    assert!(rt; checksums_of_each_short_length());
}
