//! A bank of devices beside the present one, and the loads of document 02's second wish: a block into its run of rows, and the whole
//! bridge. Each is a loop over the Rust's devices with one matrix.

use crate::format::Written;
use crate::mosfet1::{inside::View, Mosfet1};
use crate::rows::{self, Matrix, Stage};
use crate::runner::{load_residual, loaded, Answer};

/// So many places can be written. Behind them is one more, so that a load can be handed a device too many.
pub const PLACES: usize = 64;

pub struct Bank {
    devices: Vec<Mosfet1>,
    stages: Vec<Stage>,
}

/// What both loads are handed. The devices are the first `count` of the bank, `alpha` is None for direct current.
pub struct Load {
    pub count: usize,
    pub runs: Vec<(u64, u64)>,
    pub alpha: Option<f64>,
    pub rhs: Vec<f64>,
    pub matrix: Matrix,
}

/// The device of an empty N-channel card.
pub fn empty_device() -> Mosfet1 {
    Mosfet1::from_model_params(false, &[]).0
}

impl Bank {
    pub fn new() -> Bank {
        Bank { devices: (0..=PLACES).map(|_| empty_device()).collect(), stages: vec![Stage::Card; PLACES + 1] }
    }

    pub fn place(&mut self, at: usize, device: Mosfet1, stage: Stage) {
        self.devices[at] = device;
        self.stages[at] = stage;
    }

    /// A load of a block by the number of its run, or of the whole bridge, which zeroes both slices first.
    pub fn load(&mut self, block: Option<u64>, load: Load) -> Answer {
        let Load { count, runs, alpha, mut rhs, mut matrix } = load;
        rows::blocks(count, &runs, block, rhs.len())?;
        let part = block.map_or(0..rhs.len(), |k| {
            let (start, length) = runs[k as usize];
            start as usize..(start + length) as usize
        });
        let devices = &mut self.devices[..count];
        let given: Vec<(Stage, View)> = self.stages.iter().copied().zip(devices.iter().map(Mosfet1::view)).collect();
        rows::loads(&given, alpha, part.len(), &matrix)?;
        if block.is_none() {
            rhs.fill(0.0);
            matrix.values.fill(0.0);
        }
        for device in devices.iter() {
            load_residual(device, alpha, &mut rhs[part.clone()]);
        }
        matrix.values = loaded(devices, alpha, &matrix);
        let word = if block.is_some() { "loadblock" } else { "loadbridge" };
        Ok(format!("{word} {} {}", rhs[..].written(), matrix.values[..].written()))
    }
}
