//! The state after a cell that can't be read.

use feed_text::put_cell_ref;
use linked_list_allocator::LocalHeap;
use rows_cells::CellRef;
use rows_errors::RowsError;
use std::alloc::Global;

/// The result with this much memory, and the number of bytes in the text afterwards.
fn put_in(alloc: Global, cell: CellRef<'_>, size: usize) -> (Result<(), RowsError>, usize) {
    let Ok(heap) = LocalHeap::new(alloc, size) else {
        return (Ok(()), 0);
    };
    let mut out = Vec::new(&heap);
    let Ok(()) = out.extend_from_slice(b"ab") else {
        return (Ok(()), 0);
    };
    (put_cell_ref(alloc, 3, cell, &mut out), out.len())
}

// After a cell that can't be read, its label is removed.
#[test]
fn failed_cells(rt: HostRuntime) {
    let alloc = rt.alloc();
    assert!(rt;
        put_in(alloc, CellRef::Int(5), 512) == (Ok(()), 6)
            && put_in(alloc, CellRef::Int(5), 64) == (Err(RowsError::Memory), 2)
            && put_in(alloc, CellRef::Bytes(&[b'a'; 200]), 128) == (Err(RowsError::Memory), 2)
            && put_in(alloc, CellRef::Decimal(2, 0, b"\xe4"), 512) == (Err(RowsError::Decimal), 2)
            && put_in(alloc, CellRef::Json(b"\x0d"), 512) == (Err(RowsError::Jsonb(None)), 2)
    );
}
