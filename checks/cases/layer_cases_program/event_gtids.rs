//! The fields of GTID events.

use crate::event_bodies::{Body, put_built_as};
use crate::event_memory::written;
use crate::event_words::{put_bytes_field, put_field, put_unless};
use crate::words::{Fault, bytes_of, number_of, put_bytes};
use events_frames::read_body;
use events_bodies::{AnonymousGtidEvent, GtidEvent};
use std::alloc::{AllocError, Global};

/// Appends the fields that each event has.
fn put_numbers(event: &GtidEvent<'_>, out: &mut Vec<u8>) -> Result<(), Fault> {
    put_field(" flags ", event.flags_raw(), out)?;
    put_field(" known ", u8::from(event.flags()), out)?;
    put_bytes_field(" sid ", &event.sid(), out)?;
    put_field(" gno ", event.gno(), out)
}

/// Appends the optional fields.
fn put_optional(event: &GtidEvent<'_>, out: &mut Vec<u8>) -> Result<(), Fault> {
    put_field(" clock ", event.lc_typecode(), out)?;
    put_field(" ", event.last_committed(), out)?;
    put_field(" ", event.sequence_number(), out)?;
    put_field(" committed ", event.immediate_commit_timestamp(), out)?;
    put_field(" originally ", event.original_commit_timestamp(), out)?;
    put_field(" length ", event.tx_length(), out)?;
    put_field(" server ", event.immediate_server_version(), out)?;
    put_field(" originally ", event.original_server_version(), out)?;
    put_field(" ticket ", event.commit_group_ticket(), out)
}

/// The event that setters make from the last fields of an event.
fn with_last<'a>(event: &GtidEvent<'_>) -> GtidEvent<'a> {
    let mut built = GtidEvent::new([9; 16], 9)
        .with_sid(event.sid())
        .with_gno(event.gno())
        .with_flags(event.flags());
    if event.commit_group_ticket() > 0 {
        built = built.with_commit_group_ticket(event.commit_group_ticket());
    }
    if event.immediate_server_version() > 0 {
        built = built
            .with_original_server_version(event.original_server_version())
            .with_immediate_server_version(event.immediate_server_version());
    }
    if event.tx_length() > 0 {
        built = built.with_tx_length(event.tx_length());
    }
    built
}

/// The event that setters make from all fields of an event.
fn built<'a>(event: &GtidEvent<'_>) -> GtidEvent<'a> {
    let mut built = with_last(event);
    if event.immediate_commit_timestamp() > 0 {
        built = built
            .with_original_commit_timestamp(event.original_commit_timestamp())
            .with_immediate_commit_timestamp(event.immediate_commit_timestamp());
    }
    if event.lc_typecode().is_some() {
        built = built
            .with_lc_typecode()
            .with_sequence_number(event.sequence_number())
            .with_last_committed(event.last_committed());
    }
    built
}

impl<'a> Body<'a> for GtidEvent<'a> {
    fn put_fields(&self, _alloc: Global, out: &mut Vec<u8>) -> Result<(), Fault> {
        put_numbers(self, out)?;
        put_optional(self, out)
    }

    fn owned(self, alloc: Global) -> Result<GtidEvent<'a>, AllocError> {
        self.into_owned(alloc)
    }

    fn put_built(&self, alloc: Global, out: &mut Vec<u8>) -> Result<(), Fault> {
        let built = built(self);
        put_built_as(alloc, &built, self, built == *self, out)
    }
}

impl<'a> Body<'a> for AnonymousGtidEvent<'a> {
    fn put_fields(&self, alloc: Global, out: &mut Vec<u8>) -> Result<(), Fault> {
        self.0.put_fields(alloc, out)
    }

    fn owned(self, alloc: Global) -> Result<AnonymousGtidEvent<'a>, AllocError> {
        self.into_owned(alloc)
    }

    fn put_built(&self, alloc: Global, out: &mut Vec<u8>) -> Result<(), Fault> {
        self.0.put_built(alloc, out)
    }
}

/// `commit_time BODY MICROSECONDS`: the bytes that are written for a GTID event after its commit time is set.
pub(crate) fn put_commit_time(
    alloc: Global,
    arguments: &[&str],
    out: &mut Vec<u8>,
) -> Result<(), Fault> {
    let [body, time] = arguments else {
        return Err(Fault::NoCase);
    };
    let (body, time) = (bytes_of(alloc, body)?, number_of(time)?);
    let read = read_body::<GtidEvent<'_>>(alloc, (), &body)?;
    let set = read.with_immediate_commit_timestamp(time);
    let bytes = written(alloc, &set)?;
    put_bytes(&bytes, out)?;
    put_unless(set.len() == bytes.len(), "of another length", out)?;
    put_unless(
        set.immediate_commit_timestamp() == time,
        "of another time",
        out,
    )
}
