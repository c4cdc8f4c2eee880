//! Constants of the protocol and their numbers.

use crate::row_constants;
use crate::wire_words::signed_of;
use crate::words::{Fault, done, put_number, put_text};
use std::alloc::Global;
use std::fmt::{Debug, Display};
use std::io::Write;
use wire_constants::{
    ColumnType, Constant, DEFAULT_MAX_ALLOWED_PACKET, GeometryType, MAX_PAYLOAD_LEN,
    UTF8_GENERAL_CI, UTF8MB4_GENERAL_CI,
};
use wire_fields_extra::{Command, ItemResult};

/// The number of a word, in a narrower type.
pub(crate) fn narrow<N: TryFrom<i128>>(word: &str) -> Result<N, Fault>
where
    N::Error: Drop,
{
    match N::try_from(signed_of(word)?) {
        Ok(number) => Ok(number),
        Err(_) => Err(Fault::NoCase),
    }
}

/// Appends the name of the constant with this number, or the text of the error, which must have the number.
fn put_constant<P: TryFrom<i128> + Display + PartialEq + Copy, C: Constant<P> + Debug>(
    word: &str,
    out: &mut Vec<u8>,
) -> Result<(), Fault>
where
    <P as TryFrom<i128>>::Error: Drop,
    P: From<C::Error>,
    C::Error: Display + Copy,
{
    let number = narrow::<P>(word)?;
    match C::try_from(number) {
        Ok(constant) => {
            done(write!(out, "{constant:?}"))?;
            if constant.to_number() != number {
                put_text(" of another number", out)?;
            }
        }
        Err(unknown) => {
            done(write!(out, "{unknown}"))?;
            if P::from(unknown) != number {
                put_text(" of another number", out)?;
            }
        }
    }
    Ok(())
}

/// `constant KIND NUMBER`: the name of the constant of this kind with this number, or the text of the error.
pub(crate) fn put_named(arguments: &[&str], out: &mut Vec<u8>) -> Result<(), Fault> {
    match arguments {
        ["ColumnType", word] => put_constant::<u8, ColumnType>(word, out),
        ["GeometryType", word] => put_constant::<u8, GeometryType>(word, out),
        ["ItemResult", word] => put_constant::<i8, ItemResult>(word, out),
        _ => Err(Fault::NoCase),
    }
}

/// The commands of MySQL's client.
const COMMANDS: [Command; 32] = [
    Command::COM_SLEEP,
    Command::COM_QUIT,
    Command::COM_INIT_DB,
    Command::COM_QUERY,
    Command::COM_FIELD_LIST,
    Command::COM_CREATE_DB,
    Command::COM_DROP_DB,
    Command::COM_REFRESH,
    Command::COM_DEPRECATED_1,
    Command::COM_STATISTICS,
    Command::COM_PROCESS_INFO,
    Command::COM_CONNECT,
    Command::COM_PROCESS_KILL,
    Command::COM_DEBUG,
    Command::COM_PING,
    Command::COM_TIME,
    Command::COM_DELAYED_INSERT,
    Command::COM_CHANGE_USER,
    Command::COM_BINLOG_DUMP,
    Command::COM_TABLE_DUMP,
    Command::COM_CONNECT_OUT,
    Command::COM_REGISTER_SLAVE,
    Command::COM_STMT_PREPARE,
    Command::COM_STMT_EXECUTE,
    Command::COM_STMT_SEND_LONG_DATA,
    Command::COM_STMT_CLOSE,
    Command::COM_STMT_RESET,
    Command::COM_SET_OPTION,
    Command::COM_STMT_FETCH,
    Command::COM_DAEMON,
    Command::COM_BINLOG_DUMP_GTID,
    Command::COM_RESET_CONNECTION,
];

/// `command NAME`: the number of the command with this name.
pub(crate) fn put_command(
    alloc: Global,
    arguments: &[&str],
    out: &mut Vec<u8>,
) -> Result<(), Fault> {
    let [name] = arguments else {
        return Err(Fault::NoCase);
    };
    for command in COMMANDS {
        let shown = format!(in alloc; "{command:?}")?;
        if shown.as_str() == *name {
            return put_number(u64::from(command as u8), out);
        }
    }
    Err(Fault::NoCase)
}

/// `named NAME`: the value of the constant with this name.
pub(crate) fn put_named_number(arguments: &[&str], out: &mut Vec<u8>) -> Result<(), Fault> {
    match arguments {
        ["MAX_PAYLOAD_LEN"] => put_number(MAX_PAYLOAD_LEN as u64, out),
        ["DEFAULT_MAX_ALLOWED_PACKET"] => put_number(DEFAULT_MAX_ALLOWED_PACKET as u64, out),
        ["UTF8_GENERAL_CI"] => put_number(u64::from(UTF8_GENERAL_CI), out),
        ["UTF8MB4_GENERAL_CI"] => put_number(u64::from(UTF8MB4_GENERAL_CI), out),
        _ => row_constants::put_named(arguments, out),
    }
}
