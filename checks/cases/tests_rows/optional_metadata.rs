//! Members of the optional metadata without memory.

use linked_list_allocator::LocalHeap;
use rows_table_map::SetStrValues;
use std::alloc::Global;
use wire_buf::{MyDeserialize, MySerialize, ParseBuf, WireFault};

/// The result of writing three names of 100 bytes with this much memory, and the number of bytes in the buffer afterwards.
fn put_in(alloc: Global, size: usize) -> (Result<(), WireFault>, usize) {
    let mut bytes = [100u8; 304];
    bytes[0] = 3;
    let Ok(members) = SetStrValues::deserialize(alloc, (), &mut ParseBuf(&bytes)) else {
        return (Ok(()), 0);
    };
    let Ok(heap) = LocalHeap::new(alloc, size) else {
        return (Ok(()), 0);
    };
    let mut out = Vec::new(&heap);
    let Ok(()) = out.extend_from_slice(b"ab") else {
        return (Ok(()), 0);
    };
    (members.serialize(&mut out), out.len())
}

// After running out of memory, the count and the names written before are removed.
#[test]
fn members_without_memory(rt: HostRuntime) {
    let alloc = rt.alloc();
    assert!(rt;
        put_in(alloc, 4096) == (Ok(()), 306) && put_in(alloc, 400) == (Err(WireFault::Memory), 2)
    );
}
