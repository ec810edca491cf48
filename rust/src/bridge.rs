//! The loads of several devices: a block of a bridge by itself, and the whole bridge. The devices lie in a row, and only they are read.
use crate::calls::*;
use crate::record::{Cells, DeviceRecord};
use crate::refusal::{accepted, Refusal};
use crate::{Device, Load, Matrix};

// a slice of devices is handed over as the records that they are
const _: () = assert!(core::mem::size_of::<Device>() == core::mem::size_of::<DeviceRecord>());
const _: () = assert!(core::mem::align_of::<Device>() == core::mem::align_of::<DeviceRecord>());

/// Which rows of the shared right-hand side the blocks of a bridge own: block i the `counts[i]` rows from `starts[i]` on. The runs stand
/// in any order; they may touch but not overlap, and each lies inside the right-hand side, an empty one too. Every load tests all of
/// them ([`Refusal::Run`]). Without a block both slices are empty.
#[derive(Clone, Copy, Debug)]
pub struct Runs<'a> {
    /// The first row of each.
    pub starts: &'a [usize],
    /// How many rows each has.
    pub counts: &'a [usize],
}

/// Loads one block of a bridge by itself: its devices in device order, as [`Device::load`] does one after another, on the part of `rhs`
/// that is the block's run, and on a matrix of the block's own. Nodes and columns are numbered from the start of the run. What lies
/// outside the run stays.
///
/// Refused as a load is, by the lowest number over all devices; before that by [`Refusal::Run`] where the runs are none of `rhs`, where
/// `block` is not below their count, and where there are more than [`MOST_DEVICES`](crate::MOST_DEVICES) devices. Everything is tested
/// before the first write.
pub fn load_block(
    devices: &[Device],
    block: usize,
    runs: Runs,
    load: Load,
    rhs: &mut [f64],
    matrix: Matrix,
) -> Result<(), Refusal> {
    let (transient, alpha) = load.numbers();
    // SAFETY: each pointer and count is a live slice's, and a device is its record; both slices that are written are borrowed
    // mutably, so they overlap none.
    accepted(unsafe {
        mivtolgya_load_block(
            devices.as_ptr().cast(),
            devices.len(),
            block,
            runs.starts.as_ptr(),
            runs.starts.len(),
            runs.counts.as_ptr(),
            runs.counts.len(),
            transient,
            alpha,
            rhs.as_mut_ptr(),
            rhs.len(),
            matrix.values.as_mut_ptr(),
            matrix.values.len(),
            matrix.columns.as_ptr(),
            matrix.columns.len(),
            matrix.offsets.as_ptr(),
            matrix.offsets.len(),
            matrix.lengths.as_ptr(),
            matrix.lengths.len(),
        )
    })
}

/// Loads the whole bridge: sets `rhs` and the matrix's values to 0, gaps too, and loads the devices in device order. They are bound to
/// the rows of the bridge, where blocks share nodes. Refused as [`load_block`], which needs a block besides.
///
/// ```
/// # use mivtolgya::*;
/// # fn main() -> Result<(), Refusal> {
/// # let (mut high, _) = Device::from_model_params(Polarity::Nmos, &[("vto", 1.0), ("kp", 2.0)], &mut [])?;
/// # high.set_instance_params(&[], &mut [])?;
/// # high.setup_model(300.15)?;
/// # let mut low = high.clone();
/// # let at = Conditions { temperature: 300.15, gmin: 0.0, limiter: false, transient: false, method: Method::None };
/// # let (columns, offsets, lengths) = ([[0, 1, 2, 3]; 4].concat(), [0, 4, 8, 12], [4; 4]);
/// // rows: supply, output, gate of the high side, gate of the low side
/// high.setup_instance(Node::Row(0), Node::Row(2), Node::Row(1), Node::Row(1), 4)?;
/// low.setup_instance(Node::Row(1), Node::Row(3), Node::Ground, Node::Ground, 4)?;
/// let mut bridge = [high, low];
/// let runs = Runs { starts: &[0, 2], counts: &[2, 2] };
/// let (mut rhs, mut values) = ([0.0; 4], [0.0; 16]);
/// for device in &mut bridge {
///     device.eval(&[4.0, 1.0, 3.0, 3.0], at)?;
/// }
/// let matrix = Matrix { values: &mut values, columns: &columns, offsets: &offsets, lengths: &lengths };
/// load_bridge(&bridge, runs, Load::DirectCurrent, &mut rhs, matrix)?;
/// # Ok(())
/// # }
/// ```
pub fn load_bridge(devices: &[Device], runs: Runs, load: Load, rhs: &mut [f64], matrix: Matrix) -> Result<(), Refusal> {
    let (transient, alpha) = load.numbers();
    // SAFETY: as for a block.
    accepted(unsafe {
        mivtolgya_load_bridge(
            devices.as_ptr().cast(),
            devices.len(),
            runs.starts.as_ptr(),
            runs.starts.len(),
            runs.counts.as_ptr(),
            runs.counts.len(),
            transient,
            alpha,
            rhs.as_mut_ptr(),
            rhs.len(),
            matrix.values.as_mut_ptr(),
            matrix.values.len(),
            matrix.columns.as_ptr(),
            matrix.columns.len(),
            matrix.offsets.as_ptr(),
            matrix.offsets.len(),
            matrix.lengths.as_ptr(),
            matrix.lengths.len(),
        )
    })
}

/// [`load_bridge`] on the pattern that the cells of all devices were resolved for, with the same answer and the same two slices, but
/// without the pattern and without a search. `cells[i]` is what [`Device::resolve`] answered for device i; those behind the last device
/// are not read. Refused as [`load_bridge`] and [`Device::load_resolved`] are, also where a device has no cells
/// ([`Refusal::MissingCell`]); what the latter does not notice is not noticed here either.
#[inline]
pub fn load_bridge_resolved(
    devices: &[Device],
    runs: Runs,
    load: Load,
    cells: &[Cells],
    rhs: &mut [f64],
    values: &mut [f64],
) -> Result<(), Refusal> {
    let (transient, alpha) = load.numbers();
    // SAFETY: as for a block; the cells are only read.
    accepted(unsafe {
        mivtolgya_load_bridge_resolved(
            devices.as_ptr().cast(),
            devices.len(),
            runs.starts.as_ptr(),
            runs.starts.len(),
            runs.counts.as_ptr(),
            runs.counts.len(),
            transient,
            alpha,
            cells.as_ptr(),
            cells.len(),
            rhs.as_mut_ptr(),
            rhs.len(),
            values.as_mut_ptr(),
            values.len(),
        )
    })
}
