//! Conversion of the errors of fields and of documents to errors of rows.

use rows_errors::{JsonbError, RowsError};
use wire_buf::WireFault;

fn faults_of_the_wire() -> bool {
    RowsError::from(WireFault::Eof) == RowsError::EndOfBody
        && RowsError::from(WireFault::BadNumber) == RowsError::UnknownNumber
        && RowsError::from(WireFault::BadConst) == RowsError::UnknownNumber
        && RowsError::from(WireFault::Memory) == RowsError::Memory
        && RowsError::from(WireFault::Read) == RowsError::Read
}

fn faults_of_documents() -> bool {
    let fault = JsonbError::SizeOverflow;
    RowsError::from(fault) == RowsError::Jsonb(Some(fault))
}

#[test]
fn faults(rt: HostRuntime) {
    assert!(rt; faults_of_the_wire());
    assert!(rt; faults_of_documents());
}
