//! Statements: their fields and their status variables.

use crate::event_bodies::{Body, put_built_as};
use crate::event_memory::written;
use crate::event_words::{put_bytes_field, put_debug, put_field, put_text_field, put_unless};
use crate::words::{Fault, bytes_of, only_bytes_of, put_bytes, put_rest, put_text};
use events_bodies::ExecuteLoadQueryEvent;
use events_frames::{QueryTexts, read_body};
use events_bodies::{QueryEvent, StatusVar, StatusVars, StatusVarsIterator};
use rows_constants_extra::{LoadDuplicateHandling, StatusVarKey};
use std::alloc::{AllocError, Global};
use std::borrow::CowSlice;
use wire_buf::ParseBuf;

/// No bytes.
fn nothing<'a>() -> CowSlice<'a, u8> {
    CowSlice::Borrowed(b"")
}

/// Whether the texts that are found in the body of a QUERY_EVENT are those of the event, or there is none.
pub(crate) fn has_its_texts(alloc: Global, bytes: &[u8]) -> bool {
    match (
        QueryTexts::read(bytes),
        read_body::<QueryEvent<'_>>(alloc, (), bytes),
    ) {
        (Some(texts), Ok(event)) => {
            texts.schema == event.schema_raw() && texts.query == event.query_raw()
        }
        (None, Err(_)) => true,
        _ => false,
    }
}

impl<'a> Body<'a> for QueryEvent<'a> {
    fn put_fields(&self, alloc: Global, out: &mut Vec<u8>) -> Result<(), Fault> {
        put_field(" thread ", self.thread_id(), out)?;
        put_field(" seconds ", self.execution_time(), out)?;
        put_field(" error ", self.error_code(), out)?;
        put_bytes_field(" variables ", self.status_vars_raw(), out)?;
        let schema = self.schema(alloc)?;
        put_text_field(" schema ", self.schema_raw(), schema, out)?;
        let query = self.query(alloc)?;
        put_text_field(" query ", self.query_raw(), query, out)?;
        let is_same = self.status_vars().as_bytes() == self.status_vars_raw();
        put_unless(is_same, "of other status variables", out)?;
        let texts = self.status_vars_raw().len() + self.schema_raw().len() + self.query_raw().len();
        put_unless(self.len() == 14 + texts, "of another length", out)
    }

    fn owned(self, alloc: Global) -> Result<QueryEvent<'a>, AllocError> {
        self.into_owned(alloc)
    }

    fn put_built(&self, alloc: Global, out: &mut Vec<u8>) -> Result<(), Fault> {
        let built = QueryEvent::new(nothing(), nothing(), nothing())
            .with_thread_id(self.thread_id())
            .with_execution_time(self.execution_time())
            .with_error_code(self.error_code())
            .with_status_vars(CowSlice::Borrowed(self.status_vars_raw()))
            .with_schema(CowSlice::Borrowed(self.schema_raw()))
            .with_query(CowSlice::Borrowed(self.query_raw()));
        put_built_as(alloc, &built, self, built == *self, out)?;
        let direct = QueryEvent::new(
            CowSlice::Borrowed(self.status_vars_raw()),
            CowSlice::Borrowed(self.schema_raw()),
            CowSlice::Borrowed(self.query_raw()),
        );
        let numbered = direct
            .with_error_code(self.error_code())
            .with_execution_time(self.execution_time())
            .with_thread_id(self.thread_id());
        put_unless(numbered == built, "setters make another body", out)
    }
}

/// Appends the numbers of a statement with a file.
fn put_numbers(event: &ExecuteLoadQueryEvent<'_>, out: &mut Vec<u8>) -> Result<(), Fault> {
    put_field(" thread ", event.thread_id(), out)?;
    put_field(" seconds ", event.execution_time(), out)?;
    put_field(" error ", event.error_code(), out)?;
    put_field(" file ", event.file_id(), out)?;
    put_field(" from ", event.start_pos(), out)?;
    put_field(" to ", event.end_pos(), out)?;
    put_field(" duplicates ", event.dup_handling_raw(), out)?;
    put_field(" ", event.dup_handling(), out)
}

/// The event for a file with the same handling of duplicates, or `LOAD_DUP_ERROR` if that is unknown.
fn empty_load<'a>(event: &ExecuteLoadQueryEvent<'_>) -> ExecuteLoadQueryEvent<'a> {
    let handling = match event.dup_handling() {
        Ok(handling) => handling,
        Err(_) => LoadDuplicateHandling::LOAD_DUP_ERROR,
    };
    ExecuteLoadQueryEvent::new(
        1,
        LoadDuplicateHandling::LOAD_DUP_IGNORE,
        nothing(),
        nothing(),
        nothing(),
    )
    .with_dup_handling(handling)
}

impl<'a> Body<'a> for ExecuteLoadQueryEvent<'a> {
    fn put_fields(&self, alloc: Global, out: &mut Vec<u8>) -> Result<(), Fault> {
        put_numbers(self, out)?;
        put_bytes_field(" variables ", self.status_vars_raw(), out)?;
        let schema = self.schema(alloc)?;
        put_text_field(" schema ", self.schema_raw(), schema, out)?;
        let query = self.query(alloc)?;
        put_text_field(" query ", self.query_raw(), query, out)?;
        let is_same = self.status_vars().as_bytes() == self.status_vars_raw();
        put_unless(is_same, "of other status variables", out)?;
        let texts = self.status_vars_raw().len() + self.schema_raw().len() + self.query_raw().len();
        put_unless(self.len() == 27 + texts, "of another length", out)
    }

    fn owned(self, alloc: Global) -> Result<ExecuteLoadQueryEvent<'a>, AllocError> {
        self.into_owned(alloc)
    }

    fn put_built(&self, alloc: Global, out: &mut Vec<u8>) -> Result<(), Fault> {
        let built = empty_load(self)
            .with_thread_id(self.thread_id())
            .with_execution_time(self.execution_time())
            .with_error_code(self.error_code())
            .with_file_id(self.file_id())
            .with_start_pos(self.start_pos())
            .with_end_pos(self.end_pos())
            .with_status_vars(CowSlice::Borrowed(self.status_vars_raw()))
            .with_schema(CowSlice::Borrowed(self.schema_raw()))
            .with_query(CowSlice::Borrowed(self.query_raw()));
        put_built_as(alloc, &built, self, built == *self, out)
    }
}

/// `long_schema SCHEMA`: the length of what is written for the statement `BEGIN` in this schema, and the length of the schema and
/// the statement that are read from it.
pub(crate) fn put_long_schema(
    alloc: Global,
    arguments: &[&str],
    out: &mut Vec<u8>,
) -> Result<(), Fault> {
    let schema = only_bytes_of(alloc, arguments)?;
    let event = QueryEvent::new(
        nothing(),
        CowSlice::Borrowed(&schema),
        CowSlice::Borrowed(b"BEGIN"),
    );
    let bytes = written(alloc, &event)?;
    put_field("", bytes.len(), out)?;
    put_unless(event.len() == bytes.len(), "of another length", out)?;
    let read = read_body::<QueryEvent<'_>>(alloc, (), &bytes)?;
    put_field(" schema ", read.schema_raw().len(), out)?;
    put_text_field(" query ", read.query_raw(), read.query(alloc)?, out)?;
    let wanted = QueryEvent::new(
        nothing(),
        CowSlice::Borrowed(schema.get(..255).unwrap_or(&schema)),
        CowSlice::Borrowed(b"BEGIN"),
    );
    put_unless(read == wanted, "it is another statement", out)
}

/// Appends a variable: its key, its bytes and the `Debug` text of its value.
fn put_variable(alloc: Global, var: &StatusVar<'_>, out: &mut Vec<u8>) -> Result<(), Fault> {
    put_debug(&var.key(), out)?;
    put_bytes_field(" ", var.value_raw(), out)?;
    let value = var.get_value(alloc)?;
    put_text(" ", out)?;
    put_debug(&value, out)?;
    put_unless(
        value == var.get_value(alloc)?,
        "it differs when read again",
        out,
    )
}

/// Whether the first variable with the key is that which the block's variables have first.
fn is_found(vars: &StatusVars<'_>, key: StatusVarKey) -> bool {
    let mut first = None;
    for var in vars.iter() {
        if first.is_none() && var.key() == key {
            first = Some(var);
        }
    }
    vars.get_status_var(key) == first
}

/// Appends a remark if a variable isn't found by its key, or another one is.
fn put_unless_found(vars: &StatusVars<'_>, out: &mut Vec<u8>) -> Result<(), Fault> {
    for number in 0..=255u8 {
        if let Ok(key) = StatusVarKey::try_from(number) {
            put_unless(is_found(vars, key), "another variable is found by key", out)?;
        }
    }
    Ok(())
}

/// Appends a remark if the block, read before a `z` and made owned, isn't written unchanged.
fn put_unless_kept(alloc: Global, block: &[u8], out: &mut Vec<u8>) -> Result<(), Fault> {
    let mut longer = Vec::from_slice(alloc, block)?;
    longer.push(b'z')?;
    let mut buf = ParseBuf(&longer);
    let read = buf.parse::<StatusVars<'_>>(alloc, block.len())?;
    put_unless(buf.0 == b"z".as_slice(), "other bytes remain", out)?;
    let is_same = read == StatusVars::new(CowSlice::Borrowed(block));
    put_unless(is_same, "it differs when read", out)?;
    let owned = read.into_owned(alloc)?;
    let is_kept = written(alloc, &owned)?.as_slice() == block;
    put_unless(is_kept, "it is written otherwise when owned", out)
}

/// `status_vars BLOCK`: the key, the bytes and the `Debug` text of the value of each variable, and the bytes after the last one,
/// if there are any.
pub(crate) fn put_status_vars(
    alloc: Global,
    arguments: &[&str],
    out: &mut Vec<u8>,
) -> Result<(), Fault> {
    let [block] = arguments else {
        return Err(Fault::NoCase);
    };
    let block = bytes_of(alloc, block)?;
    let vars = StatusVars::new(CowSlice::Borrowed(&block));
    let mut iter = StatusVarsIterator::new(&block);
    let mut rest = block.as_slice();
    let mut separator = "";
    while let Some(var) = iter.next() {
        put_text(separator, out)?;
        put_variable(alloc, &var, out)?;
        rest = rest.get(1 + var.value_raw().len()..).unwrap_or(b"");
        separator = "; ";
    }
    if separator.is_empty() {
        put_text("none", out)?;
    }
    put_unless(iter.next().is_none(), "another variable follows", out)?;
    put_rest(rest, out)?;
    put_unless(vars.as_bytes() == block.as_slice(), "of other bytes", out)?;
    let is_same = vars.iter().count() == StatusVarsIterator::new(&block).count();
    put_unless(is_same, "of another count", out)?;
    put_unless_found(&vars, out)?;
    put_unless_kept(alloc, &block, out)
}
