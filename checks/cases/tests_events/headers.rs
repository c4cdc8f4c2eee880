//! Headers and footers that constructors and setters make.

use events_frames::{BinlogEventFooter, BinlogEventHeader};
use rows_constants::{BinlogChecksumAlg, EventFlags, EventType, UnknownEventType};

fn header_built() -> bool {
    let header = BinlogEventHeader::new(1, 15, 3, 4, 5, 0x8001);
    let unknown = BinlogEventHeader::new(1, 200, 3, 4, 5, 0);
    header.timestamp() == 1
        && header.event_type_raw() == 15
        && header.event_type() == Ok(EventType::FORMAT_DESCRIPTION_EVENT)
        && header.server_id() == 3
        && header.event_size() == 4
        && header.log_pos() == 5
        && header.flags_raw() == 0x8001
        && header.flags() == EventFlags::LOG_EVENT_BINLOG_IN_USE_F
        && unknown.event_type() == Err(UnknownEventType(200))
}

fn footers_built() -> bool {
    let crc = BinlogEventFooter::new(BinlogChecksumAlg::BINLOG_CHECKSUM_ALG_CRC32);
    let off = BinlogEventFooter::new(BinlogChecksumAlg::BINLOG_CHECKSUM_ALG_OFF);
    let none = BinlogEventFooter::default();
    let mut unpacked = crc;
    unpacked.set_checksum_enabled(false);
    crc.has_checksums()
        && crc.get_checksum_enabled()
        && crc.get_checksum_alg() == Ok(Some(BinlogChecksumAlg::BINLOG_CHECKSUM_ALG_CRC32))
        && !off.has_checksums()
        && off.checksum_alg_raw() == Some(0)
        && !none.has_checksums()
        && none.get_checksum_alg() == Ok(None)
        && !unpacked.has_checksums()
        && !unpacked.get_checksum_enabled()
        && unpacked != crc
}

#[test]
fn headers(rt: HostRuntime) {
    assert!(rt; header_built());
    assert!(rt; footers_built());
}
