//! Decodes data of standard input: for each piece its format, one byte, then the limit and the piece's length, eight bytes each,
//! little-endian, and its bytes. Prints a line for each: the length and the CRC-32 of the content, or the error; `changed` if bytes
//! that were there before the call aren't there after it, or if an error leaves others. All calls have one decoder of each kind.

use byteorder::{ByteOrder, LittleEndian};
use crc32::crc32;
use inflate::{InflateDecoder, InflateError};
use std::io::{self, Read, Write};
use std::process::ExitCode;
use zstd_decoder::ZstdDecoder;

/// The bytes before the content.
const BEFORE: &[u8] = b"before";

/// The decoders.
#[derive(Drop)]
struct Decoders {
    zstd: ZstdDecoder,
    inflate: InflateDecoder,
}

/// Appends the content of DEFLATE data, which has to be the whole input.
fn decode_deflate(
    decoder: &mut InflateDecoder,
    input: &[u8],
    out: &mut Vec<u8>,
    limit: usize,
) -> Result<(), InflateError> {
    let len = decoder.decode_deflate(input, out, limit)?;
    if len != input.len() {
        out.truncate(BEFORE.len());
        return Err(InflateError::TrailingBytes);
    }
    Ok(())
}

impl Decoders {
    /// Appends the content of a piece to `out`, or its error to `text`. Returns whether it has content.
    fn decode(
        &mut self,
        format: u8,
        input: &[u8],
        limit: usize,
        out: &mut Vec<u8>,
        text: &mut Vec<u8>,
    ) -> io::Result<bool> {
        let inflate = &mut self.inflate;
        let inflated = match format {
            b'z' => inflate.decode_zlib(input, out, limit),
            b'g' => inflate.decode_gzip(input, out, limit),
            b'd' => decode_deflate(inflate, input, out, limit),
            b'f' => {
                if let Err(error) = self.zstd.decode_frame(input, out, limit) {
                    writeln!(text, "{error}")?;
                    return Ok(false);
                }
                return Ok(true);
            }
            _ => {
                if let Err(error) = self.zstd.decode(input, out, limit) {
                    writeln!(text, "{error}")?;
                    return Ok(false);
                }
                return Ok(true);
            }
        };
        if let Err(error) = inflated {
            writeln!(text, "{error}")?;
            return Ok(false);
        }
        Ok(true)
    }

    /// Appends the line of a piece.
    fn put_line(
        &mut self,
        format: u8,
        input: &[u8],
        limit: usize,
        out: &mut Vec<u8>,
        text: &mut Vec<u8>,
    ) -> io::Result<()> {
        out.clear();
        out.extend_from_slice(BEFORE)?;
        let has_content = self.decode(format, input, limit, out, text)?;
        let Some(content) = out.as_slice().strip_prefix(BEFORE) else {
            return writeln!(text, "changed");
        };
        if has_content {
            return writeln!(text, "{} {}", content.len(), crc32(content));
        }
        if !content.is_empty() {
            return writeln!(text, "changed");
        }
        Ok(())
    }
}

/// Prints the lines of all pieces.
fn run(rt: &HostRuntime) -> io::Result<()> {
    let mut input = Vec::new(rt.alloc());
    rt.reader().read_to_end(&mut input)?;
    let mut decoders = Decoders {
        zstd: ZstdDecoder::new(rt.alloc()),
        inflate: InflateDecoder::new(),
    };
    let (mut out, mut text) = (Vec::new(rt.alloc()), Vec::new(rt.alloc()));
    let mut rest = input.as_slice();
    while rest.len() >= 17 {
        let limit = LittleEndian::read_u64(&rest[1..]) as usize;
        let end = 17 + LittleEndian::read_u64(&rest[9..]) as usize;
        decoders.put_line(rest[0], &rest[17..end], limit, &mut out, &mut text)?;
        rest = &rest[end..];
    }
    io::writer(rt).write_all(&text)
}

fn main(rt: HostRuntime) -> ExitCode {
    match run(&rt) {
        Ok(()) => ExitCode::SUCCESS,
        Err(_) => ExitCode::FAILURE,
    }
}
