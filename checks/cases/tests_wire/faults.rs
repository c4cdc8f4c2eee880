//! Conversion of the error of a length-encoded integer to that of a field.

use wire_buf::WireFault;
use wire_fields::InvalidLengthEncodedInteger;

#[test]
fn error_of_an_integer(rt: HostRuntime) {
    assert!(rt; WireFault::from(InvalidLengthEncodedInteger) == WireFault::BadNumber);
}
