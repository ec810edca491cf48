//! Within mna.rs.

use super::{Cell, Pattern, PatternBuilder};

/// A found cell's row and its place in that row.
pub fn row_and_slot(cell: Cell) -> (usize, usize) {
    (cell.row as usize, cell.slot as usize)
}

/// The pattern with these columns in its rows, which rise in each row.
pub fn pattern_of(rows: &[Vec<u32>]) -> Pattern {
    let mut builder = PatternBuilder::new(rows.len());
    for (row, columns) in rows.iter().enumerate() {
        for column in columns {
            builder.touch(row, *column as usize);
        }
    }
    builder.finish()
}
