//! Patterns, and the two slices of a load.
use mivtolgya::{Cells, Device, Load, Matrix, Refusal};

/// Right-hand side and values.
pub type Slices = (Vec<f64>, Vec<f64>);

/// A pattern, without values.
#[derive(Clone)]
pub struct Layout {
    pub columns: Vec<u32>,
    pub offsets: Vec<usize>,
    pub lengths: Vec<usize>,
}

impl Layout {
    /// Rows of these columns, before each a gap of so many places.
    pub fn new(rows: &[Vec<u32>], gap: usize) -> Layout {
        let mut made = Layout { columns: vec![], offsets: vec![], lengths: vec![] };
        for row in rows {
            made.columns.extend(vec![9; gap]);
            made.offsets.push(made.columns.len());
            made.lengths.push(row.len());
            made.columns.extend(row);
        }
        made
    }

    pub fn full(rows: u32, gap: usize) -> Layout {
        Layout::new(&vec![(0..rows).collect(); rows as usize], gap)
    }

    pub fn without(rows: u32, row: usize, column: u32) -> Layout {
        let mut all = vec![(0..rows).collect::<Vec<u32>>(); rows as usize];
        all[row].retain(|c| *c != column);
        Layout::new(&all, 0)
    }

    pub fn matrix<'a>(&'a self, values: &'a mut [f64]) -> Matrix<'a> {
        Matrix { values, columns: &self.columns, offsets: &self.offsets, lengths: &self.lengths }
    }

    pub fn resolve(&self, device: &Device) -> Result<Cells, Refusal> {
        device.resolve(&self.columns, &self.offsets, &self.lengths)
    }

    /// Both slices after a load that searches, from contents that tell each place from the others.
    pub fn searched(&self, device: &Device, load: Load) -> Result<Slices, Refusal> {
        let (mut rhs, mut values) = contents(self.offsets.len(), self.columns.len());
        device.load(load, &mut rhs, self.matrix(&mut values))?;
        Ok((rhs, values))
    }
}

/// Contents that tell each place from the others.
pub fn contents(rows: usize, count: usize) -> Slices {
    ((0..rows).map(|i| i as f64).collect(), (0..count).map(|i| i as f64 / 8.0).collect())
}

pub fn bits_of(slices: Slices) -> Vec<u64> {
    slices.0.iter().chain(&slices.1).map(|v| v.to_bits()).collect()
}

/// Both slices after a call that starts from these contents. A refused one leaves them, bit for bit.
pub fn after(before: Slices, call: impl FnOnce(&mut [f64], &mut [f64]) -> Result<(), Refusal>) -> Result<Slices, Refusal> {
    let (mut rhs, mut values) = before.clone();
    let answer = call(&mut rhs, &mut values);
    if answer.is_err() {
        assert_eq!(bits_of((rhs.clone(), values.clone())), bits_of(before));
    }
    answer.map(|()| (rhs, values))
}
