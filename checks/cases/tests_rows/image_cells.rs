//! Reading the cells of an image one by one.

use rows_cells::{CellFormat, CellRef, ImageCells, ImageColumn, ImagePlan, Width};
use rows_errors::RowsError;

/// A column of signed integers of four bytes.
fn long_column(column: u32) -> ImageColumn {
    ImageColumn {
        column,
        format: CellFormat::Signed(Width::Four),
        json_column: 0,
    }
}

/// The number of NULL cells in the image that the bytes begin with, and the number of bytes after it: the example of the
/// documentation.
fn nulls(columns: &[ImageColumn], bytes: &[u8]) -> Result<(usize, usize), RowsError> {
    let plan = ImagePlan {
        columns,
        json_columns: None,
    };
    let mut cells = ImageCells::of(plan, bytes)?;
    let mut count = 0usize;
    for _ in 0..cells.len() {
        if let Some((_, CellRef::Null)) = cells.next_cell()? {
            count = count.wrapping_add(1);
        }
    }
    Ok((count, cells.rest().len()))
}

#[test]
fn nulls_of_an_image(rt: HostRuntime) {
    let columns = [long_column(0), long_column(1)];
    assert!(rt;
        nulls(&columns, b"\x02\x05\0\0\0\xff") == Ok((1, 1))
            && nulls(&columns, b"\x02\x05\0\0") == Err(RowsError::EndOfBody)
    );
}
