//! The SPICE Level-1 MOSFET model, proved: a safe face of `libmivtolgya.a` and `libmivtolgya_bridge.a`. It needs no standard library
//! and no heap.
//!
//! A [`Device`] owns its record. The calls come in the order card, geometry, scaling, binding, evaluation; load, commit, noise and
//! reactances follow an evaluation. [`Device::matrix_layout`] answers, after the binding, the matrix that every load of the device fits
//! into. A loop over a large matrix looks the device's [`Cells`] up once, by [`Device::resolve`] after the binding, and loads by
//! [`Device::load_resolved`]; one over many devices lays the conditions out once, for [`Device::eval_at`]. A bridge of up to
//! [`MOST_DEVICES`] devices is loaded by one call, [`load_bridge`] or [`load_bridge_resolved`], and a block of it by [`load_block`]. Every
//! call answers or is refused by a [`Refusal`]; after a refusal the device and every lent slice hold what they held. The
//! repository's docs/USING.md has the keys with their ranges, the causes of refusals, and what threads may share.
//!
//! ```
//! use mivtolgya::{Conditions, Device, Method, Node, Polarity};
//! # fn main() -> Result<(), mivtolgya::Refusal> {
//! let (mut device, _) = Device::from_model_params(Polarity::Nmos, &[("vto", 1.0), ("kp", 2.0)], &mut [])?;
//! device.set_instance_params(&[("w", 1e-4), ("l", 1e-4)], &mut [])?;
//! device.setup_model(300.15)?;
//! device.setup_instance(Node::Row(0), Node::Row(1), Node::Ground, Node::Ground, 2)?;
//! let conditions = Conditions { temperature: 300.15, gmin: 0.0, limiter: false, transient: false, method: Method::None };
//! assert_eq!(device.eval(&[1.0, 3.0], conditions)?.ids, 3.0);
//! # Ok(())
//! # }
//! ```
#![no_std]
#![warn(missing_docs)]

#[cfg(not(all(target_arch = "x86_64", target_os = "linux", target_pointer_width = "64")))]
compile_error!("libmivtolgya.a is an archive for x86-64 Linux");

mod bridge;
mod calls;
mod keys;
#[allow(missing_docs)]
mod record;
mod refusal;

pub use bridge::{load_block, load_bridge, load_bridge_resolved, Runs};
pub use keys::{Keys, MAX_KEYS, MAX_KEY_BYTES};
pub use record::*;
pub use refusal::{check_floating_point, check_interface, Refusal};

use calls::*;
use keys::Room;
use refusal::accepted;

/// The channel's polarity.
#[derive(Clone, Copy, Debug, PartialEq, Eq)]
#[repr(u64)]
pub enum Polarity {
    /// n-channel.
    Nmos = NMOS,
    /// p-channel.
    Pmos = PMOS,
}

/// How far a device has come.
#[derive(Clone, Copy, Debug, PartialEq, Eq, PartialOrd, Ord)]
#[repr(u64)]
pub enum Stage {
    /// Its card was read.
    Card = STAGE_CARD,
    /// Its geometry was set.
    Geometry = STAGE_GEOMETRY,
    /// It was scaled to a temperature.
    Scaled = STAGE_SCALED,
    /// Its terminals were bound.
    Bound = STAGE_BOUND,
    /// It was evaluated.
    Evaluated = STAGE_EVALUATED,
}

/// A node of the circuit.
#[derive(Clone, Copy, Debug, PartialEq, Eq)]
pub enum Node {
    /// The node whose voltage is 0 and that has no row.
    Ground,
    /// The row of the node in voltages, right-hand side and matrix, from 0 on.
    Row(usize),
}

impl Node {
    fn record(self) -> NodeRecord {
        match self {
            Node::Ground => NodeRecord { tag: NODE_GROUND, index: 0 },
            Node::Row(index) => NodeRecord { tag: NODE_ROW, index },
        }
    }

    fn from(record: NodeRecord) -> Node {
        if record.tag == NODE_GROUND {
            Node::Ground
        } else {
            Node::Row(record.index)
        }
    }
}

/// An integration method with its step lengths in seconds, each from 1e-15 to 1.
#[derive(Clone, Copy, Debug, PartialEq)]
pub enum Method {
    /// No step: a load then needs its alpha.
    None,
    /// Backward Euler with the step h.
    Euler(f64),
    /// The trapezoidal rule with the step h.
    Trapezoid(f64),
    /// Gear of second order with the step h and the earlier one.
    Gear(f64, f64),
}

impl Method {
    fn record(self) -> MethodRecord {
        let (tag, h, h_prev) = match self {
            Method::None => (METHOD_NONE, 0.0, 0.0),
            Method::Euler(h) => (METHOD_EULER, h, 0.0),
            Method::Trapezoid(h) => (METHOD_TRAPEZOID, h, 0.0),
            Method::Gear(h, h_prev) => (METHOD_GEAR, h, h_prev),
        };
        MethodRecord { tag, h, h_prev }
    }
}

/// What an evaluation is handed besides the voltages.
#[derive(Clone, Copy, Debug)]
pub struct Conditions {
    /// In kelvin, 200 to 500. Read for the thermal voltage alone; the parameters are those of the last scaling.
    pub temperature: f64,
    /// In siemens, 0 to 1: added to the channel's and the junctions' conductances.
    pub gmin: f64,
    /// Whether the steps of the gate-source and drain-source voltages are limited.
    pub limiter: bool,
    /// Whether capacitances and charges are evaluated too.
    pub transient: bool,
    /// The method by which a later load and commit integrate the charges.
    pub method: Method,
}

impl From<Conditions> for ConditionsRecord {
    #[inline]
    fn from(conditions: Conditions) -> ConditionsRecord {
        ConditionsRecord {
            temperature: conditions.temperature,
            gmin: conditions.gmin,
            limiter: conditions.limiter as u64,
            transient: conditions.transient as u64,
            method: conditions.method.record(),
        }
    }
}

/// A matrix by rows: row i is `lengths[i]` values from `offsets[i]` on, in the columns that stand at the same places.
#[derive(Debug)]
pub struct Matrix<'a> {
    /// The values that are added to.
    pub values: &'a mut [f64],
    /// The column of each value, rising in a row.
    pub columns: &'a [u32],
    /// Where each row begins, not before the end of the one before it.
    pub offsets: &'a [usize],
    /// How many values each row has.
    pub lengths: &'a [usize],
}

/// The lengths that a device's matrix pattern needs, as [`Device::matrix_layout`] answers them.
#[derive(Clone, Copy, Debug, PartialEq, Eq)]
pub struct Needed {
    /// Of the columns, and so of the matrix's values.
    pub columns: usize,
    /// Of the offsets and of the lengths: one more than the largest node, 0 where all are ground.
    pub rows: usize,
}

/// What a load adds.
#[derive(Clone, Copy, Debug)]
pub enum Load {
    /// Channel and junctions.
    DirectCurrent,
    /// The charge branches too. The factor alpha, in 1/s, is read where the last evaluation had no step.
    Transient(f64),
}

impl Load {
    /// The transient flag and alpha.
    fn numbers(self) -> (u64, f64) {
        match self {
            Load::DirectCurrent => (0, 0.0),
            Load::Transient(alpha) => (1, alpha),
        }
    }
}

/// A noise source.
#[derive(Clone, Copy, Debug, PartialEq)]
pub struct Noise {
    /// The inner drain.
    pub drain: Node,
    /// The inner source.
    pub source: Node,
    /// In A²/Hz.
    pub density: f64,
}

/// A capacitor between two nodes.
#[derive(Clone, Copy, Debug, PartialEq)]
pub struct Reactance {
    /// The node at its positive end.
    pub pos: Node,
    /// The node at its negative end.
    pub neg: Node,
    /// In farad.
    pub capacitance: f64,
}

fn reactance(record: ReactanceRecord) -> Option<Reactance> {
    (record.tag == PRESENT).then(|| Reactance {
        pos: Node::from(record.pos),
        neg: Node::from(record.neg),
        capacitance: record.capacitance,
    })
}

/// A device, from the stage of its card on. It is 904 bytes of plain numbers: a clone is a second device. A slice of devices lies as
/// their records do, which the loads of a bridge read.
#[derive(Clone, Debug)]
#[repr(transparent)]
pub struct Device {
    record: DeviceRecord,
}

impl Device {
    /// Reads a card: keys by name with their values, at most [`MAX_KEYS`] of them. The places of unknown keys go to `unknown`, in
    /// order; their count is answered.
    pub fn from_model_params(polarity: Polarity, keys: &[(&str, f64)], unknown: &mut [usize]) -> Result<(Device, usize), Refusal> {
        Device::from_laid_out_params(polarity, Room::new().lay_out(keys)?, unknown)
    }

    /// Reads a card whose keys are laid out already.
    pub fn from_laid_out_params(polarity: Polarity, keys: Keys, unknown: &mut [usize]) -> Result<(Device, usize), Refusal> {
        check_interface()?;
        check_floating_point()?;
        // SAFETY: the record is numbers alone, for which zeros are values.
        let none: DeviceRecord = unsafe { core::mem::zeroed() };
        // SAFETY: each pointer and count is a live slice's; the one that is written is borrowed mutably.
        let o = unsafe {
            mivtolgya_from_model_params(
                none,
                polarity as u64,
                keys.bytes.as_ptr(),
                keys.bytes.len(),
                keys.offsets.as_ptr(),
                keys.offsets.len(),
                keys.lengths.as_ptr(),
                keys.lengths.len(),
                keys.values.as_ptr(),
                keys.values.len(),
                unknown.as_mut_ptr(),
                unknown.len(),
            )
        };
        accepted(o.refusal)?;
        Ok((Device { record: o.device }, o.unknown))
    }

    /// Sets the geometry: keys by name with their values, at most [`MAX_KEYS`] of them. The places of unknown keys go to
    /// `unknown`, in order; their count is answered.
    pub fn set_instance_params(&mut self, keys: &[(&str, f64)], unknown: &mut [usize]) -> Result<usize, Refusal> {
        self.set_laid_out_params(Room::new().lay_out(keys)?, unknown)
    }

    /// Sets the geometry from keys that are laid out already.
    pub fn set_laid_out_params(&mut self, keys: Keys, unknown: &mut [usize]) -> Result<usize, Refusal> {
        // SAFETY: as for a card.
        let o = unsafe {
            mivtolgya_set_instance_params(
                self.record.clone(),
                keys.bytes.as_ptr(),
                keys.bytes.len(),
                keys.offsets.as_ptr(),
                keys.offsets.len(),
                keys.lengths.as_ptr(),
                keys.lengths.len(),
                keys.values.as_ptr(),
                keys.values.len(),
                unknown.as_mut_ptr(),
                unknown.len(),
            )
        };
        accepted(o.refusal)?;
        self.record = o.device;
        Ok(o.unknown)
    }

    /// Scales the parameters to a temperature in kelvin.
    pub fn setup_model(&mut self, temperature: f64) -> Result<(), Refusal> {
        // SAFETY: records by value.
        let o = unsafe { mivtolgya_setup_model(self.record.clone(), temperature) };
        accepted(o.refusal)?;
        self.record = o.device;
        Ok(())
    }

    /// How many nodes beyond the four terminals a binding takes: one for each series resistance above 0. The stage does not matter:
    /// before the first geometry call a sheet resistance counts for nothing yet. [`extra_nodes`](Device::extra_nodes) refuses then.
    pub fn num_extra_nodes(&self) -> usize {
        // SAFETY: records by value.
        unsafe { mivtolgya_num_extra_nodes(self.record.clone()).count }
    }

    /// The same count, refused ([`Refusal::Stage`]) before the first geometry call: a sheet resistance needs the geometry's squares.
    pub fn extra_nodes(&self) -> Result<usize, Refusal> {
        // SAFETY: records by value.
        let o = unsafe { mivtolgya_extra_nodes(self.record.clone()) };
        accepted(o.refusal)?;
        Ok(o.count)
    }

    /// Binds drain, gate, source and bulk, and the extra nodes from the row `first` on: the inner drain, then the inner source.
    pub fn setup_instance(&mut self, drain: Node, gate: Node, source: Node, bulk: Node, first: usize) -> Result<(), Refusal> {
        let nodes = NodesRecord { drain: drain.record(), gate: gate.record(), source: source.record(), bulk: bulk.record() };
        // SAFETY: records by value.
        let o = unsafe { mivtolgya_setup_instance(self.record.clone(), nodes, first) };
        accepted(o.refusal)?;
        self.record = o.device;
        Ok(())
    }

    /// The pattern of a matrix for a bound device, to reserve it before any evaluation: every cell that a load of the device can ever
    /// add to, whatever its capacitances are, ground left out, by rows and rising columns, each once. A row without a cell has length
    /// 0. On this pattern no load of the device is refused by [`Refusal::MissingCell`] until it is bound anew.
    ///
    /// Where a slice is shorter than the answer says, nothing is written to any of the three, and the call is not refused. Else the
    /// pattern stands at the beginning of each slice, and what lies behind it stays. With [`LAYOUT_COLUMNS`] columns only the room for
    /// the rows depends on the nodes. Refused before the binding ([`Refusal::Stage`]).
    ///
    /// ```
    /// # use mivtolgya::*;
    /// # fn main() -> Result<(), Refusal> {
    /// # let (mut device, _) = Device::from_model_params(Polarity::Nmos, &[("vto", 1.0), ("kp", 2.0)], &mut [])?;
    /// # device.set_instance_params(&[], &mut [])?;
    /// # device.setup_model(300.15)?;
    /// device.setup_instance(Node::Row(0), Node::Row(1), Node::Ground, Node::Ground, 2)?;
    /// let needed = device.matrix_layout(&mut [], &mut [], &mut [])?;
    /// let (mut columns, mut offsets, mut lengths) = (vec![0; needed.columns], vec![0; needed.rows], vec![0; needed.rows]);
    /// device.matrix_layout(&mut columns, &mut offsets, &mut lengths)?;
    /// assert_eq!((columns, offsets, lengths), (vec![0, 1, 0, 1], vec![0, 2], vec![2, 2]));
    /// # Ok(())
    /// # }
    /// ```
    pub fn matrix_layout(&self, columns: &mut [u32], offsets: &mut [usize], lengths: &mut [usize]) -> Result<Needed, Refusal> {
        // SAFETY: the record by value; each pointer and count is a live slice's, borrowed mutably, so none overlaps another.
        let o = unsafe {
            mivtolgya_matrix_layout(
                self.record.clone(),
                columns.as_mut_ptr(),
                columns.len(),
                offsets.as_mut_ptr(),
                offsets.len(),
                lengths.as_mut_ptr(),
                lengths.len(),
            )
        };
        accepted(o.refusal)?;
        Ok(Needed { columns: o.columns, rows: o.rows })
    }

    /// Evaluates at the node voltages `x`, in volts, one for each row.
    #[inline]
    pub fn eval(&mut self, x: &[f64], conditions: Conditions) -> Result<AnswerRecord, Refusal> {
        self.eval_at(x, &conditions.into())
    }

    /// [`eval`](Device::eval) at conditions that are laid out already, with the same answer. A simulator evaluates every device of an
    /// iteration at the same conditions: laid out once, they are only copied at each call, which takes less time.
    ///
    /// A record that was made from [`Conditions`] has no unknown flag or tag. One that was written by hand may have; it is refused
    /// ([`Refusal::Tag`]).
    ///
    /// ```
    /// # use mivtolgya::*;
    /// # fn main() -> Result<(), Refusal> {
    /// # let (mut device, _) = Device::from_model_params(Polarity::Nmos, &[("vto", 1.0), ("kp", 2.0)], &mut [])?;
    /// # device.set_instance_params(&[], &mut [])?;
    /// # device.setup_model(300.15)?;
    /// # device.setup_instance(Node::Row(0), Node::Row(1), Node::Ground, Node::Ground, 2)?;
    /// # let conditions = Conditions { temperature: 300.15, gmin: 0.0, limiter: false, transient: false, method: Method::None };
    /// # let mut devices = [device.clone(), device];
    /// let at = ConditionsRecord::from(conditions);
    /// for device in &mut devices {
    ///     assert_eq!(device.eval_at(&[1.0, 3.0], &at)?.ids, 3.0);
    /// }
    /// # Ok(())
    /// # }
    /// ```
    #[inline]
    pub fn eval_at(&mut self, x: &[f64], conditions: &ConditionsRecord) -> Result<AnswerRecord, Refusal> {
        // SAFETY: the pointer and count are a live slice's; the record is borrowed mutably, so it overlaps none.
        let reply = unsafe { mivtolgya_eval_in_place(&mut self.record, x.as_ptr(), x.len(), *conditions) };
        accepted(reply.refusal)?;
        Ok(reply.answer)
    }

    /// Adds the device to the right-hand side and the matrix.
    #[inline]
    pub fn load(&self, load: Load, rhs: &mut [f64], matrix: Matrix) -> Result<(), Refusal> {
        let (transient, alpha) = load.numbers();
        // SAFETY: each pointer and count is a live slice's; both that are written are borrowed mutably, so they overlap none.
        accepted(unsafe {
            mivtolgya_load_in_place(
                &self.record,
                transient,
                alpha,
                rhs.as_mut_ptr(),
                rhs.len(),
                matrix.values.as_mut_ptr(),
                matrix.values.len(),
                matrix.columns.as_ptr(),
                matrix.columns.len(),
                matrix.offsets.as_ptr(),
                matrix.offsets.len(),
                matrix.lengths.as_ptr(),
                matrix.lengths.len(),
            )
        })
    }

    /// Looks up every cell of a bound device in a matrix, once, for [`load_resolved`](Device::load_resolved). Ask again after each
    /// binding anew and whenever the pattern changes; no other call changes the answer, and devices with the same six nodes may
    /// share it. The matrix has as many values as columns. It may lack cells of [`Cells::gate_places`], until a transient load needs
    /// them.
    pub fn resolve(&self, columns: &[u32], offsets: &[usize], lengths: &[usize]) -> Result<Cells, Refusal> {
        // SAFETY: the record by value; each pointer and count is a live slice's, and none is written.
        let o = unsafe {
            mivtolgya_resolve(
                self.record.clone(),
                columns.as_ptr(),
                columns.len(),
                offsets.as_ptr(),
                offsets.len(),
                lengths.as_ptr(),
                lengths.len(),
            )
        };
        accepted(o.refusal)?;
        Ok(o.cells)
    }

    /// [`load`](Device::load) on the pattern that `cells` was resolved for, with the same answer and the same two slices, but without
    /// the pattern and without a search: the time does not grow with the matrix.
    ///
    /// Refused are cells of another binding ([`Refusal::MissingCell`]), another count of values ([`Refusal::Pattern`]), and numbers
    /// that no pattern has, whatever they are. Not noticed is a pattern that was changed after the cells were resolved and has as
    /// many values as before: what is added goes where the cells lay before.
    ///
    /// ```
    /// # use mivtolgya::*;
    /// # fn main() -> Result<(), Refusal> {
    /// # let (mut device, _) = Device::from_model_params(Polarity::Nmos, &[("vto", 1.0), ("kp", 2.0)], &mut [])?;
    /// # device.set_instance_params(&[], &mut [])?;
    /// # device.setup_model(300.15)?;
    /// # let at = Conditions { temperature: 300.15, gmin: 0.0, limiter: false, transient: false, method: Method::None };
    /// # let (mut rhs, mut values) = ([0.0; 2], [0.0; 4]);
    /// device.setup_instance(Node::Row(0), Node::Row(1), Node::Ground, Node::Ground, 2)?;
    /// let cells = device.resolve(&[0, 1, 0, 1], &[0, 2], &[2, 2])?;
    /// for x in [[1.0, 3.0], [1.0, 2.5]] {
    ///     device.eval(&x, at)?;
    ///     rhs.fill(0.0);
    ///     values.fill(0.0);
    ///     device.load_resolved(Load::DirectCurrent, &cells, &mut rhs, &mut values)?;
    /// }
    /// # Ok(())
    /// # }
    /// ```
    #[inline]
    pub fn load_resolved(&self, load: Load, cells: &Cells, rhs: &mut [f64], values: &mut [f64]) -> Result<(), Refusal> {
        let (transient, alpha) = load.numbers();
        // SAFETY: as for a load; the cells are only read.
        accepted(unsafe {
            mivtolgya_load_resolved(
                &self.record,
                transient,
                alpha,
                cells,
                rhs.as_mut_ptr(),
                rhs.len(),
                values.as_mut_ptr(),
                values.len(),
            )
        })
    }

    /// Commits the step at the node voltages `x`: the evaluated charges become the last ones.
    #[inline]
    pub fn commit_timestep(&mut self, x: &[f64]) -> Result<(), Refusal> {
        // SAFETY: as for an evaluation.
        accepted(unsafe { mivtolgya_commit_in_place(&mut self.record, x.as_ptr(), x.len()) })
    }

    /// The noise source at a temperature in kelvin and a frequency in hertz, if there is one.
    pub fn noise_sources(&self, temperature: f64, freq: f64) -> Result<Option<Noise>, Refusal> {
        // SAFETY: records by value.
        let o = unsafe { mivtolgya_noise_sources(self.record.clone(), temperature, freq) };
        accepted(o.refusal)?;
        Ok((o.tag == PRESENT).then(|| Noise {
            drain: Node::from(o.drain),
            source: Node::from(o.source),
            density: o.density,
        }))
    }

    /// The capacitors gs, gd, gb, bs and bd at the operating point.
    pub fn small_signal_reactances(&self) -> Result<[Option<Reactance>; 5], Refusal> {
        // SAFETY: records by value.
        let o = unsafe { mivtolgya_small_signal_reactances(self.record.clone()) };
        accepted(o.refusal)?;
        Ok([o.gs, o.gd, o.gb, o.bs, o.bd].map(reactance))
    }

    /// How far the device has come.
    pub fn stage(&self) -> Stage {
        match self.record.stage {
            STAGE_CARD => Stage::Card,
            STAGE_GEOMETRY => Stage::Geometry,
            STAGE_SCALED => Stage::Scaled,
            STAGE_BOUND => Stage::Bound,
            _ => Stage::Evaluated,
        }
    }

    /// The device's record, to look at.
    pub fn record(&self) -> &DeviceRecord {
        &self.record
    }
}
