//! Packed times and dates.

use crate::words::{Fault, byte_of, bytes_of, done, put_rest, put_text};
use feed_text::put_value;
use mysql_binlog_rows::{
    my_datetime_packed_from_binary, my_time_packed_from_binary, my_timestamp_from_binary,
};
use rows_values::{
    MysqlTime, datetime_from_packed, datetime_of, time_from_packed, time_of, timestamp_of,
};
use std::alloc::Global;
use std::io::Write;

/// The number of fractional digits and the bytes of a case.
fn decimals_and_bytes(alloc: Global, arguments: &[&str]) -> Result<(u8, Vec<u8>), Fault> {
    let [decimals, bytes] = arguments else {
        return Err(Fault::NoCase);
    };
    Ok((byte_of(decimals)?, bytes_of(alloc, bytes)?))
}

/// `time2 DECIMALS BYTES`: the packed number of a TIME, its text as a value, and that of a `MysqlTime` with and without six
/// digits of microseconds.
pub(crate) fn put_time(alloc: Global, arguments: &[&str], out: &mut Vec<u8>) -> Result<(), Fault> {
    let (decimals, bytes) = decimals_and_bytes(alloc, arguments)?;
    let mut input = bytes.as_slice();
    let packed = my_time_packed_from_binary(&mut input, u32::from(decimals))?;
    if time_of(&bytes, u32::from(decimals)) != packed {
        put_text("otherwise by time_of ", out)?;
    }
    done(write!(out, "{packed} "))?;
    put_value(&time_from_packed(packed), out)?;
    let time = MysqlTime::from_int64_time_packed(packed);
    done(write!(out, " {time:.6}"))?;
    done(write!(out, " {time}"))?;
    put_rest(input, out)
}

/// `datetime2 DECIMALS BYTES`: the packed number of a date and time, its text as a value, and that of a `MysqlTime` with six
/// digits of microseconds, and that of its date.
pub(crate) fn put_datetime(
    alloc: Global,
    arguments: &[&str],
    out: &mut Vec<u8>,
) -> Result<(), Fault> {
    let (decimals, bytes) = decimals_and_bytes(alloc, arguments)?;
    let mut input = bytes.as_slice();
    let packed = my_datetime_packed_from_binary(&mut input, u32::from(decimals))?;
    if datetime_of(&bytes, u32::from(decimals)) != packed {
        put_text("otherwise by datetime_of ", out)?;
    }
    done(write!(out, "{packed} "))?;
    put_value(&datetime_from_packed(packed), out)?;
    let time = MysqlTime::from_int64_datetime_packed(packed);
    done(write!(out, " {time:.6}"))?;
    let date = MysqlTime::from_int64_date_packed(packed);
    done(write!(out, " {date}"))?;
    put_rest(input, out)
}

/// `timestamp2 DECIMALS BYTES`: the seconds and the microseconds of a timestamp.
pub(crate) fn put_timestamp(
    alloc: Global,
    arguments: &[&str],
    out: &mut Vec<u8>,
) -> Result<(), Fault> {
    let (decimals, bytes) = decimals_and_bytes(alloc, arguments)?;
    let mut input = bytes.as_slice();
    let (seconds, micros) = my_timestamp_from_binary(&mut input, decimals)?;
    if timestamp_of(&bytes, u32::from(decimals)) != (seconds, micros) {
        put_text("otherwise by timestamp_of ", out)?;
    }
    done(write!(out, "{seconds} {micros}"))?;
    put_rest(input, out)
}
