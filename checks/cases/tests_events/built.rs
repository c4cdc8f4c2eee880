//! Bodies with a fixed layout that constructors and setters make.

use crate::written::{is_read, is_written};
use events_bodies::{BeginLoadQueryEvent, IncidentEvent, IntvarEvent, RandEvent, RowsQueryEvent};
use events_frames::{BinlogEventFooter, FormatDescriptionEvent, RotateEvent, XidEvent};
use rows_constants::{BinlogChecksumAlg, BinlogVersion};
use rows_constants_extra::{IncidentType, IntvarEventType};
use std::alloc::Global;
use std::borrow::CowSlice;

fn rotate_built(alloc: Global) -> bool {
    is_read(
        alloc,
        RotateEvent::new(0, CowSlice::Borrowed(b"a"))
            .with_position(4)
            .with_name(CowSlice::Borrowed(b"bin\xff1")),
        b"\x04\0\0\0\0\0\0\0bin\xff1",
    )
}

fn xid_built(alloc: Global) -> bool {
    is_read(
        alloc,
        XidEvent::new(0).with_xid(1234),
        b"\xd2\x04\0\0\0\0\0\0",
    )
}

fn rand_built(alloc: Global) -> bool {
    is_read(
        alloc,
        RandEvent::new(0, 0)
            .with_seed2(0x04_030201)
            .with_seed1(0x408),
        b"\x08\x04\0\0\0\0\0\0\x01\x02\x03\x04\0\0\0\0",
    )
}

fn intvar_built(alloc: Global) -> bool {
    is_read(
        alloc,
        IntvarEvent::new(IntvarEventType::LAST_INSERT_ID_EVENT, 0)
            .with_value(300)
            .with_subtype(IntvarEventType::INSERT_ID_EVENT),
        b"\x02\x2c\x01\0\0\0\0\0\0",
    )
}

fn begin_load_query_built(alloc: Global) -> bool {
    is_read(
        alloc,
        BeginLoadQueryEvent::new(1, CowSlice::Borrowed(b""))
            .with_file_id(0x0100_0007)
            .with_block_data(CowSlice::Borrowed(b"a,1\nb,2\n")),
        b"\x07\0\0\x01a,1\nb,2\n",
    )
}

fn incident_built(alloc: Global) -> bool {
    is_read(
        alloc,
        IncidentEvent::new(IncidentType::INCIDENT_NONE, CowSlice::Borrowed(b""))
            .with_incident_type(IncidentType::INCIDENT_LOST_EVENTS)
            .with_message(CowSlice::Borrowed(b"gap \xff in log")),
        b"\x01\0\x0cgap \xff in log",
    )
}

fn rows_query_built(alloc: Global) -> bool {
    is_read(
        alloc,
        RowsQueryEvent::new(CowSlice::Borrowed(b"select '\xff'")),
        b"\0select '\xff'",
    )
}

// A shorter server version is padded with zeros.
fn description_built(alloc: Global) -> bool {
    let mut bytes = [0; 59];
    bytes[..7].copy_from_slice(b"\x03\x005.6.1");
    bytes[52..].copy_from_slice(b"\xfd\x35\xbb\x4a\x13\x38\x0d");
    let crc = BinlogEventFooter::new(BinlogChecksumAlg::BINLOG_CHECKSUM_ALG_CRC32);
    let created = FormatDescriptionEvent::new(BinlogVersion::Version4)
        .with_binlog_version(BinlogVersion::Version3)
        .with_create_timestamp(1_253_783_037)
        .with_server_version(CowSlice::Borrowed(b"5.6.1"))
        .with_event_type_header_lengths(CowSlice::Borrowed(&[56, 13]))
        .with_footer(crc);
    created.footer() == crc && is_written(alloc, &created, &bytes)
}

#[test]
fn built(rt: HostRuntime) {
    let alloc = rt.alloc();
    assert!(rt; rotate_built(alloc));
    assert!(rt; xid_built(alloc));
    assert!(rt; rand_built(alloc));
    assert!(rt; intvar_built(alloc));
    assert!(rt; begin_load_query_built(alloc));
    assert!(rt; incident_built(alloc));
    assert!(rt; rows_query_built(alloc));
    assert!(rt; description_built(alloc));
}
