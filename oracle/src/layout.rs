//! The cells that a device can ever load, in lent slices, before it is evaluated. By an ordered set, from document 02's first wish.

use std::collections::BTreeSet;

use crate::mosfet1::inside::View;
use crate::rows::Matrix;

/// The slices of a call: a column for each cell, an offset and a length for each row.
pub struct Lent {
    pub columns: Vec<u32>,
    pub offsets: Vec<u64>,
    pub lengths: Vec<u64>,
}

/// The cells by row and column, and the number of rows: up to 2^32, so nothing is counted through before it is known to be lent.
pub struct Layout {
    pub cells: BTreeSet<(usize, usize)>,
    pub rows: usize,
}

impl Layout {
    /// The 24 pairs and the four cells of each charge branch, whatever its capacitance is, none with a ground end. The rows run to the
    /// largest node.
    pub fn of(d: &View) -> Layout {
        let branches = d.branches.iter().flat_map(|(a, b, _)| [(*a, *a), (*a, *b), (*b, *b), (*b, *a)]);
        Layout {
            cells: d.pairs.into_iter().chain(branches).filter_map(|(r, c)| Some((r?, c?))).collect(),
            rows: d.nodes.into_iter().flatten().max().map_or(0, |node| node + 1),
        }
    }

    /// Whether each of the slices is long enough.
    pub fn fits(&self, lent: &Lent) -> bool {
        lent.columns.len() >= self.cells.len() && lent.offsets.len() >= self.rows && lent.lengths.len() >= self.rows
    }

    /// Lays the cells out where they fit. What is behind them stays.
    pub fn write(&self, lent: &mut Lent) {
        for (place, (_, column)) in lent.columns.iter_mut().zip(&self.cells) {
            *place = *column as u32;
        }
        for r in 0..self.rows {
            lent.offsets[r] = self.cells.range(..(r, 0)).count() as u64;
            lent.lengths[r] = self.cells.range((r, 0)..(r + 1, 0)).count() as u64;
        }
    }

    /// The matrix that was laid out, all values 0.
    pub fn matrix(&self, lent: &Lent) -> Matrix {
        let pairs = lent.offsets.iter().copied().zip(lent.lengths.iter().copied());
        Matrix {
            columns: lent.columns[..self.cells.len()].to_vec(),
            rows: pairs.take(self.rows).collect(),
            values: vec![0.0; self.cells.len()],
        }
    }
}
