//! The example of the documentation of rows.

use crate::rows_tutorial::updated_rows;

/// A table map: table id 7 is `d`.`t`, with two columns, an INT and a VARCHAR(10).
const TABLE_MAP: &[u8] = b"\x07\0\0\0\0\0\x01\0\x01d\0\x01t\0\x02\x03\x0f\x02\x0a\0\x02";

/// An update of two rows of this table.
const UPDATE: &[u8] = b"\x07\0\0\0\0\0\x01\0\x02\0\x02\x03\x03\
    \0\x05\0\0\0\x01a\x02\x06\0\0\0\
    \x02\x07\0\0\0\0\x07\0\0\0\x01b";

/// Whether the example has its output.
#[test]
fn rows_of_the_example(rt: HostRuntime) {
    let alloc = rt.alloc();
    assert!(rt;
        match updated_rows(alloc, TABLE_MAP, UPDATE) {
            Ok(text) => {
                text.as_slice()
                    == b" 0=5 1='a' to 0=6 1=NULL\n 0=7 1=NULL to 0=7 1='b'\n".as_slice()
            }
            Err(_) => false,
        }
    );
}
