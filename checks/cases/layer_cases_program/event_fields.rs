//! The fields of event bodies with a fixed layout.

use crate::event_bodies::{Body, put_built_as};
use crate::event_words::{put_bytes_field, put_field, put_text_field, put_unless};
use crate::words::Fault;
use events_bodies::{
    BeginLoadQueryEvent, IncidentEvent, IntvarEvent, RandEvent, RowsQueryEvent, UserVarEvent,
};
use events_frames::{RotateEvent, XidEvent};
use rows_constants_extra::{IncidentType, IntvarEventType};
use std::alloc::{AllocError, Global};
use std::borrow::CowSlice;

impl<'a> Body<'a> for RotateEvent<'a> {
    fn put_fields(&self, alloc: Global, out: &mut Vec<u8>) -> Result<(), Fault> {
        put_field(" position ", self.position(), out)?;
        let name = self.name(alloc)?;
        put_text_field(" name ", self.name_raw(), name, out)?;
        put_field(" fake ", self.is_fake(), out)?;
        put_unless(
            self.len() == 8 + self.name_raw().len(),
            "of another length",
            out,
        )
    }

    fn owned(self, alloc: Global) -> Result<RotateEvent<'a>, AllocError> {
        self.into_owned(alloc)
    }

    fn put_built(&self, alloc: Global, out: &mut Vec<u8>) -> Result<(), Fault> {
        let name = CowSlice::Borrowed(self.name_raw());
        let direct = RotateEvent::new(self.position(), name);
        put_built_as(alloc, &direct, self, direct == *self, out)?;
        let built = RotateEvent::new(1, CowSlice::Borrowed(b"a"))
            .with_position(self.position())
            .with_name(CowSlice::Borrowed(self.name_raw()));
        put_built_as(alloc, &built, self, built == *self, out)
    }
}

impl<'a> Body<'a> for XidEvent {
    fn put_fields(&self, _alloc: Global, out: &mut Vec<u8>) -> Result<(), Fault> {
        put_field(" xid ", self.xid(), out)?;
        put_unless(self.len() == 8, "of another length", out)
    }

    fn owned(self, _alloc: Global) -> Result<XidEvent, AllocError> {
        Ok(self)
    }

    fn put_built(&self, alloc: Global, out: &mut Vec<u8>) -> Result<(), Fault> {
        let direct = XidEvent::new(self.xid());
        put_built_as(alloc, &direct, self, direct == *self, out)?;
        let built = XidEvent::new(1).with_xid(self.xid());
        put_built_as(alloc, &built, self, built == *self, out)
    }
}

impl<'a> Body<'a> for RandEvent {
    fn put_fields(&self, _alloc: Global, out: &mut Vec<u8>) -> Result<(), Fault> {
        put_field(" seeds ", self.seed1(), out)?;
        put_field(" ", self.seed2(), out)?;
        put_unless(self.len() == 16, "of another length", out)
    }

    fn owned(self, _alloc: Global) -> Result<RandEvent, AllocError> {
        Ok(self)
    }

    fn put_built(&self, alloc: Global, out: &mut Vec<u8>) -> Result<(), Fault> {
        let direct = RandEvent::new(self.seed1(), self.seed2());
        put_built_as(alloc, &direct, self, direct == *self, out)?;
        let second = RandEvent::new(self.seed1(), 1).with_seed2(self.seed2());
        put_built_as(alloc, &second, self, second == *self, out)?;
        let first = RandEvent::new(1, self.seed2()).with_seed1(self.seed1());
        put_built_as(alloc, &first, self, first == *self, out)
    }
}

impl<'a> Body<'a> for IntvarEvent {
    fn put_fields(&self, _alloc: Global, out: &mut Vec<u8>) -> Result<(), Fault> {
        put_field(" type ", self.subtype_raw(), out)?;
        put_field(" ", self.subtype(), out)?;
        put_field(" value ", self.value(), out)?;
        put_unless(self.len() == 9, "of another length", out)
    }

    fn owned(self, _alloc: Global) -> Result<IntvarEvent, AllocError> {
        Ok(self)
    }

    fn put_built(&self, alloc: Global, out: &mut Vec<u8>) -> Result<(), Fault> {
        let subtype = match self.subtype() {
            Ok(subtype) => subtype,
            Err(_) => IntvarEventType::INSERT_ID_EVENT,
        };
        let direct = IntvarEvent::new(subtype, self.value());
        put_built_as(alloc, &direct, self, direct == *self, out)?;
        let built = IntvarEvent::new(IntvarEventType::INVALID_INT_EVENT, 1)
            .with_value(self.value())
            .with_subtype(subtype);
        put_unless(built == direct, "setters make another body", out)
    }
}

impl<'a> Body<'a> for BeginLoadQueryEvent<'a> {
    fn put_fields(&self, _alloc: Global, out: &mut Vec<u8>) -> Result<(), Fault> {
        put_field(" file ", self.file_id(), out)?;
        put_bytes_field(" block ", self.block_data(), out)?;
        put_unless(
            self.len() == 4 + self.block_data().len(),
            "of another length",
            out,
        )
    }

    fn owned(self, alloc: Global) -> Result<BeginLoadQueryEvent<'a>, AllocError> {
        self.into_owned(alloc)
    }

    fn put_built(&self, alloc: Global, out: &mut Vec<u8>) -> Result<(), Fault> {
        let block = CowSlice::Borrowed(self.block_data());
        let direct = BeginLoadQueryEvent::new(self.file_id(), block);
        put_built_as(alloc, &direct, self, direct == *self, out)?;
        let built = BeginLoadQueryEvent::new(1, CowSlice::Borrowed(b"a"))
            .with_file_id(self.file_id())
            .with_block_data(CowSlice::Borrowed(self.block_data()));
        put_built_as(alloc, &built, self, built == *self, out)
    }
}

impl<'a> Body<'a> for IncidentEvent<'a> {
    fn put_fields(&self, alloc: Global, out: &mut Vec<u8>) -> Result<(), Fault> {
        put_field(" type ", self.incident_type_raw(), out)?;
        put_field(" ", self.incident_type(), out)?;
        let message = self.message(alloc)?;
        put_text_field(" message ", self.message_raw(), message, out)?;
        put_unless(
            self.len() == 3 + self.message_raw().len(),
            "of another length",
            out,
        )
    }

    fn owned(self, alloc: Global) -> Result<IncidentEvent<'a>, AllocError> {
        self.into_owned(alloc)
    }

    fn put_built(&self, alloc: Global, out: &mut Vec<u8>) -> Result<(), Fault> {
        let incident_type = match self.incident_type() {
            Ok(incident_type) => incident_type,
            Err(_) => IncidentType::INCIDENT_NONE,
        };
        let direct = IncidentEvent::new(incident_type, CowSlice::Borrowed(self.message_raw()));
        put_built_as(alloc, &direct, self, direct == *self, out)?;
        let built = IncidentEvent::new(IncidentType::INCIDENT_NONE, CowSlice::Borrowed(b"a"))
            .with_incident_type(incident_type)
            .with_message(CowSlice::Borrowed(self.message_raw()));
        put_unless(built == direct, "setters make another body", out)
    }
}

impl<'a> Body<'a> for RowsQueryEvent<'a> {
    fn put_fields(&self, alloc: Global, out: &mut Vec<u8>) -> Result<(), Fault> {
        let query = self.query(alloc)?;
        put_text_field(" query ", self.query_raw(), query, out)?;
        put_unless(
            self.len() == 1 + self.query_raw().len(),
            "of another length",
            out,
        )
    }

    fn owned(self, alloc: Global) -> Result<RowsQueryEvent<'a>, AllocError> {
        self.into_owned(alloc)
    }

    fn put_built(&self, alloc: Global, out: &mut Vec<u8>) -> Result<(), Fault> {
        let built = RowsQueryEvent::new(CowSlice::Borrowed(self.query_raw()));
        put_built_as(alloc, &built, self, built == *self, out)
    }
}

impl<'a> Body<'a> for UserVarEvent<'a> {
    fn put_fields(&self, alloc: Global, out: &mut Vec<u8>) -> Result<(), Fault> {
        let name = self.name(alloc)?;
        put_text_field(" name ", self.name_raw(), name, out)?;
        match self.value() {
            Some(value) => put_bytes_field(" value ", value, out)?,
            None => put_field(" null ", self.is_null(), out)?,
        }
        put_field(" charset ", self.charset(), out)?;
        put_field(" type ", self.value_type(), out)?;
        put_field(" flags ", self.flags_raw(), out)?;
        put_field(" known ", u8::from(self.flags()), out)?;
        put_unless(
            self.is_null() == self.value().is_none(),
            "it is NULL or not",
            out,
        )
    }

    fn owned(self, alloc: Global) -> Result<UserVarEvent<'a>, AllocError> {
        self.into_owned(alloc)
    }

    fn put_built(&self, _alloc: Global, _out: &mut Vec<u8>) -> Result<(), Fault> {
        Ok(())
    }
}
