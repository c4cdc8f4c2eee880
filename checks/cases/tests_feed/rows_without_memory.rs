//! Rows whose texts take no memory.

use feed_text::put_cell_ref;
use linked_list_allocator::LocalHeap;
use rows_cells::{CellFormat, ImageColumn, ImagePlan, RowPart, RowPlan, RowsCursor, Width};
use std::alloc::Global;

/// A column of signed integers of four bytes.
fn long_column(column: u32) -> ImageColumn {
    ImageColumn {
        column,
        format: CellFormat::Signed(Width::Four),
        json_column: 0,
    }
}

/// Rows with one image of these columns.
fn one_image(columns: &[ImageColumn]) -> RowPlan<'_> {
    RowPlan {
        first: ImagePlan {
            columns,
            json_columns: None,
        },
        second: None,
    }
}

/// Whether the texts of `count` rows are written one after the other with memory for only one row.
fn rows_take_no_memory(alloc: Global, columns: &[ImageColumn], row: &[u8], count: u32) -> bool {
    let Ok(heap) = LocalHeap::new(alloc, 512) else {
        return false;
    };
    let mut out = Vec::new(&heap);
    let mut room = 0usize;
    for number in 0..count {
        out.clear();
        let mut rows = RowsCursor::of(one_image(columns), row);
        for _ in 0..columns.len() {
            let Ok(Some(RowPart::Cell(column, cell))) = rows.next_part() else {
                return false;
            };
            let Ok(()) = put_cell_ref(alloc, column, cell, &mut out) else {
                return false;
            };
        }
        if number == 0 {
            room = out.capacity();
        }
    }
    out.capacity() == room
        && out.as_slice() == b" 0=5 1='a\\27' 2='-1.5' 3=2009-09-24T09:03:57.000000".as_slice()
}

#[test]
fn no_memory_for_cells(rt: HostRuntime) {
    let alloc = rt.alloc();
    let columns = [
        long_column(0),
        ImageColumn {
            column: 1,
            format: CellFormat::Counted(Width::One),
            json_column: 0,
        },
        ImageColumn {
            column: 2,
            format: CellFormat::Decimal(2, 1),
            json_column: 0,
        },
        ImageColumn {
            column: 3,
            format: CellFormat::Datetime2(0),
            json_column: 0,
        },
    ];
    let row = b"\0\x05\0\0\0\x02a'\x7e\xfa\x99\x83\xb0\x90\xf9";
    assert!(rt; rows_take_no_memory(alloc, &columns, row, 10_000));
}
