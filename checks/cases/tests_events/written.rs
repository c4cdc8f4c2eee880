//! How a body is written, and that it is read from these bytes.

use events_frames::{BinlogStruct, read_body};
use rows_constants::BinlogVersion;
use std::alloc::Global;
use wire_buf::{MySerialize, WireFault};

/// Whether the body is written as the bytes, and `len` returns their number.
pub(crate) fn is_written<'a, T: BinlogStruct<'a> + MySerialize>(
    alloc: Global,
    body: &T,
    bytes: &[u8],
) -> bool {
    let mut out = Vec::new(alloc);
    body.serialize(&mut out).is_ok()
        && out.as_slice() == bytes
        && body.len(BinlogVersion::Version4) == bytes.len()
}

/// Whether the bytes are read as this body, which is written as the same bytes.
pub(crate) fn is_read<'a, T: BinlogStruct<'a, Ctx = (), Fault = WireFault> + PartialEq + Drop>(
    alloc: Global,
    body: T,
    bytes: &'a [u8],
) -> bool {
    match read_body::<T>(alloc, (), bytes) {
        Ok(read) => read == body && is_written(alloc, &body, bytes),
        Err(_) => false,
    }
}
