//! Times and dates with given fields, the arithmetic of packed times, and decimals with formats or many digits.

use crate::wire_constants::narrow;
use crate::wire_words::{len_of, put_long_bytes};
use crate::words::{Fault, bytes_of, done, put_number, put_text};
use feed_text::put_value;
use rows_values::{
    Decimal, MysqlTime, MysqlTimestampType, decimal_bin_size, fraction_size,
    my_packed_time_get_frac_part, my_packed_time_get_int_part, my_packed_time_make,
    my_packed_time_make_int, time_from_packed,
};
use std::alloc::Global;
use std::io::Write;
use std::str;

/// The types of times, by their names.
fn type_of(name: &str) -> Result<MysqlTimestampType, Fault> {
    match name {
        "NONE" => Ok(MysqlTimestampType::MYSQL_TIMESTAMP_NONE),
        "ERROR" => Ok(MysqlTimestampType::MYSQL_TIMESTAMP_ERROR),
        "DATE" => Ok(MysqlTimestampType::MYSQL_TIMESTAMP_DATE),
        "DATETIME" => Ok(MysqlTimestampType::MYSQL_TIMESTAMP_DATETIME),
        "TIME" => Ok(MysqlTimestampType::MYSQL_TIMESTAMP_TIME),
        "DATETIME_TZ" => Ok(MysqlTimestampType::MYSQL_TIMESTAMP_DATETIME_TZ),
        _ => Err(Fault::NoCase),
    }
}

/// The numbers of a word, with `,` between them.
fn numbers_of(alloc: Global, word: &str) -> Result<Vec<i64>, Fault> {
    let mut numbers = Vec::new(alloc);
    for number in word.split(',') {
        numbers.push(narrow::<i64>(number)?)?;
    }
    Ok(numbers)
}

/// The time of this type with these fields: year, month, day, hour, minute, second, microseconds and the offset of the time
/// zone.
fn time_of(time_type: MysqlTimestampType, fields: &[i64]) -> Result<MysqlTime, Fault> {
    let [year, month, day, hour, minute, second, second_part, zone] = fields else {
        return Err(Fault::NoCase);
    };
    Ok(MysqlTime {
        year: *year as u32,
        month: *month as u32,
        day: *day as u32,
        hour: *hour as u32,
        minute: *minute as u32,
        second: *second as u32,
        second_part: *second_part as u32,
        neg: false,
        time_type,
        time_zone_displacement: *zone as i32,
    })
}

/// `mysql_time TYPE FIELDS PRECISION`: the text of a time of this type with these fields, in brackets, with a number of digits
/// of microseconds, or without a precision (`-`).
pub(crate) fn put_mysql_time(
    alloc: Global,
    arguments: &[&str],
    out: &mut Vec<u8>,
) -> Result<(), Fault> {
    let [name, fields, precision] = arguments else {
        return Err(Fault::NoCase);
    };
    let time = time_of(type_of(name)?, &numbers_of(alloc, fields)?)?;
    match *precision {
        "-" => done(write!(out, "[{}]", time.to_string(alloc)?)),
        "0" => done(write!(out, "[{time:.0}]")),
        "3" => done(write!(out, "[{time:.3}]")),
        "6" => done(write!(out, "[{time:.6}]")),
        "9" => done(write!(out, "[{time:.9}]")),
        _ => Err(Fault::NoCase),
    }
}

/// `packed_time CALL NUMBERS`: the result of a call for packed times; `value` is the text of the value.
///
/// `timestamp_type NAME`: the number of a type of times. `fraction_size DECIMALS`: the number of bytes of a fraction.
/// `decimal_bin_size PRECISION SCALE`: the number of bytes of a decimal.
pub(crate) fn put_packed(call: &str, arguments: &[&str], out: &mut Vec<u8>) -> Result<(), Fault> {
    let number = match (call, arguments) {
        ("packed_time", ["make_int", whole]) => my_packed_time_make_int(narrow(whole)?),
        ("packed_time", ["make", whole, fraction]) => {
            my_packed_time_make(narrow(whole)?, narrow(fraction)?)
        }
        ("packed_time", ["get_int_part", packed]) => my_packed_time_get_int_part(narrow(packed)?),
        ("packed_time", ["get_frac_part", packed]) => {
            my_packed_time_get_frac_part(narrow(packed)?)
        }
        ("packed_time", ["value", packed]) => {
            return Ok(put_value(&time_from_packed(narrow(packed)?), out)?);
        }
        ("timestamp_type", [name]) => i64::from(type_of(name)? as i32),
        ("fraction_size", [decimals]) => fraction_size(narrow(decimals)?) as i64,
        ("decimal_bin_size", [precision, scale]) => {
            let (precision, scale) = (len_of(precision)?, len_of(scale)?);
            if scale > precision {
                return Err(Fault::NoCase);
            }
            decimal_bin_size(precision, scale) as i64
        }
        _ => return Err(Fault::NoCase),
    };
    done(write!(out, "{number}"))
}

/// `count` nines before and after a point.
fn nines(alloc: Global, count: usize) -> Result<Vec<u8>, Fault> {
    let mut text: Vec<u8> = Vec::new(alloc);
    text.resize(count, b'9')?;
    text.push(b'.')?;
    text.resize(2 * count + 1, b'9')?;
    Ok(text)
}

/// `nines COUNT`: the packed bytes of a decimal with so many nines before and after its point; its text must be that one, and
/// the decimal must be read back.
pub(crate) fn put_nines(alloc: Global, arguments: &[&str], out: &mut Vec<u8>) -> Result<(), Fault> {
    let [count] = arguments else {
        return Err(Fault::NoCase);
    };
    let count = len_of(count)?;
    let text = nines(alloc, count)?;
    let decimal = Decimal::parse_str_bytes(alloc, &text)?;
    let mut packed = Vec::new(alloc);
    decimal.write_bin(alloc, &mut packed)?;
    put_number(packed.len() as u64, out)?;
    put_text(" bytes ", out)?;
    put_long_bytes(&packed, out)?;
    if decimal.to_string(alloc)?.as_str().as_bytes() != text.as_slice() {
        put_text(" of another text", out)?;
    }
    if Decimal::from_bin(alloc, &packed, 2 * count, count, true)? != decimal {
        put_text(" not read back", out)?;
    }
    Ok(())
}

/// `decimal_formats TEXT`: the text of a decimal by formats with a sign, a width, a filler and a precision, which it ignores.
///
/// `decimal_zero`: the text of zero.
pub(crate) fn put_formats(
    alloc: Global,
    arguments: &[&str],
    out: &mut Vec<u8>,
) -> Result<(), Fault> {
    let decimal = match arguments {
        [text] => match str::from_utf8(&bytes_of(alloc, text)?) {
            Ok(text) => Decimal::from_str(alloc, text)?,
            Err(_) => return Err(Fault::NoCase),
        },
        [] => Decimal::zero(alloc)?,
        _ => return Err(Fault::NoCase),
    };
    done(write!(out, "{decimal:+012.1}|{decimal:*>9}|{decimal}"))
}
