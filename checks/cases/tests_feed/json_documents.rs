//! JSON documents and updates within JSON lines: escapes, values that JSON doesn't have, and paths that aren't text.

use changes_cells::{put_diffs, put_document};
use feed_text::TextBuffer;
use std::alloc::Global;

/// Whether a document is appended as this text.
fn is_shown(alloc: Global, bytes: &[u8], text: &[u8]) -> bool {
    let mut out = TextBuffer::new(alloc);
    put_document(alloc, bytes, &mut out) == Ok(()) && out.as_slice() == text
}

/// Whether updates are appended as this text.
fn is_diff(alloc: Global, bytes: &[u8], text: &[u8]) -> bool {
    let mut out = TextBuffer::new(alloc);
    put_diffs(alloc, bytes, &mut out) == Ok(()) && out.as_slice() == text
}

#[test]
fn json_documents(rt: HostRuntime) {
    let alloc = rt.alloc();
    assert!(rt;
        is_shown(
            alloc,
            b"\x00\x05\x00a\x00'\x00\x01\x00(\x00\x02\x00*\x00\x05\x00/\x00\x06\x005\x00\x1d\x00\x0cR\x00\x05\x01\x00\x05\x03\x00\x05\x02\x00\x0bY\x00x$adiffsbase64long key of more than sixteen\x06\xc3\xa9\n\"\\\x01\x00\x00\x00\x00\x00\x00\xf8?",
            b"{\"$$a\":1,\"$base64\":2,\"$diffs\":3,\"long key of more than sixteen\":1.5,\"x\":\"\xc3\xa9\\n\\\"\\\\\\u0001\"}"
        )
    );
    assert!(rt;
        is_shown(
            alloc,
            b"\x02\x07\x00V\x00\x04\x01\x00\x04\x00\x00\x05\xfb\xff\n\x19\x00\x0c!\x00\x02N\x00\x00R\x00\xff\xff\xff\xff\xff\xff\xff\xff,a long string of more than sixteen bytes, \xc3\xa9\x00\x00\x04\x00\x00\x00\x04\x00",
            b"[true,null,-5,18446744073709551615,\"a long string of more than sixteen bytes, \xc3\xa9\",[],{}]"
        )
    );
    assert!(rt;
        is_shown(
            alloc,
            b"\x02\x03\x00\x1d\x00\x0f\x0d\x00\x0c\x13\x00\x0f\x18\x00\xf6\x04\x03\x02\x812\x041.50\xfc\x03abc",
            b"[{\"$decimal\":\"1.50\"},\"1.50\",{\"$type\":252,\"base64\":\"YWJj\"}]"
        )
    );
    assert!(rt;
        is_shown(
            alloc,
            b"\x02\x03\x00+\x00\x0f\x0d\x00\x0f\x17\x00\x0f!\x00\n\x08\x00\x00\x00\x00\x00x\xbb\x19\x0c\x08@\xe2\x01\x00\xa0x\xbb\x19\x0b\x08\x00\x00\x00\x00@\xff\xff\xff",
            b"[{\"$date\":\"2026-11-28\"},{\"$datetime\":\"2026-11-28 10:00:00.123456\"},{\"$time\":\"-12:00:00.000000\"}]"
        )
    );
    assert!(rt;
        is_diff(
            alloc,
            b"\x00\x03$.a\x03\x05\x07\x00\x02\x03$.b\x01\x02\xff\xfe\x02\x04\x01",
            b"{\"diffs\":[{\"op\":\"replace\",\"path\":\"$.a\",\"value\":7},{\"op\":\"remove\",\"path\":\"$.b\"},{\"op\":\"insert\",\"path\":{\"base64\":\"//4=\"},\"value\":true}]}"
        )
    );
}
