//! The records and numbers of include/mivtolgya.h. The records are word for word those of the sources; tools/callers_test.py
//! compares both. A record that holds a device is not `Copy`: it has more than 900 bytes, and a copy should be seen.

/// The interface's number that this wrapper was written for.
pub const VERSION: u64 = 1;

/// Polarity of a card: n-channel.
pub const NMOS: u64 = 0;
/// Polarity of a card: p-channel.
pub const PMOS: u64 = 1;

/// Tag of a node: ground.
pub const NODE_GROUND: u64 = 0;
/// Tag of a node: a row of the matrix.
pub const NODE_ROW: u64 = 1;

/// Tag of a number, a noise source or a capacitor that is not there.
pub const ABSENT: u64 = 0;
/// Tag of a number, a noise source or a capacitor that is there.
pub const PRESENT: u64 = 1;

/// Tag of a method: none.
pub const METHOD_NONE: u64 = 0;
/// Tag of a method: backward Euler.
pub const METHOD_EULER: u64 = 1;
/// Tag of a method: trapezoid.
pub const METHOD_TRAPEZOID: u64 = 2;
/// Tag of a method: Gear of second order.
pub const METHOD_GEAR: u64 = 3;

/// In place of a number of [`Cells`]: the node, or an end of the cell, is ground.
pub const CELL_GROUND: usize = usize::MAX;
/// In place of a number of [`Cells`]: the pattern has no such cell.
pub const CELL_ABSENT: usize = usize::MAX - 1;

/// How many columns [`Device::matrix_layout`](crate::Device::matrix_layout) needs at most; without series resistances at most 16.
pub const LAYOUT_COLUMNS: usize = 22;

/// How many devices a block or a bridge has at most.
pub const MOST_DEVICES: usize = 64;

/// Stage of a device: its card was read.
pub const STAGE_CARD: u64 = 1;
/// Stage of a device: its geometry was set.
pub const STAGE_GEOMETRY: u64 = 2;
/// Stage of a device: it was scaled to a temperature.
pub const STAGE_SCALED: u64 = 3;
/// Stage of a device: its terminals were bound.
pub const STAGE_BOUND: u64 = 4;
/// Stage of a device: it was evaluated.
pub const STAGE_EVALUATED: u64 = 5;

/// A node: [`NODE_GROUND`], or [`NODE_ROW`] and the row that `index` names, from 0 on.
#[repr(C)]
#[derive(Clone, Copy, Debug)]
pub struct NodeRecord {
    pub tag: u64,
    pub index: usize,
}

/// A number that may be absent: [`ABSENT`], or [`PRESENT`] and `value`.
#[repr(C)]
#[derive(Clone, Copy, Debug)]
pub struct GivenRecord {
    pub tag: u64,
    pub value: f64,
}

/// An integration method, its tag a `METHOD_..`: none; Euler or trapezoid with the step h; Gear with h and the earlier step.
#[repr(C)]
#[derive(Clone, Copy, Debug)]
pub struct MethodRecord {
    pub tag: u64,
    pub h: f64,
    pub h_prev: f64,
}

/// What the card says; tnom in kelvin.
#[repr(C)]
#[derive(Clone, Copy, Debug)]
pub struct CardRecord {
    pub vto: f64,
    pub kp: f64,
    pub lambda: f64,
    pub gamma: f64,
    pub phi: f64,
    pub rd_card: GivenRecord,
    pub rs_card: GivenRecord,
    pub rsh: f64,
    pub is_bulk: f64,
    pub js: f64,
    pub kf: f64,
    pub af: f64,
    pub tnom: f64,
    pub polarity: f64,
    pub cgso: f64,
    pub cgdo: f64,
    pub cgbo: f64,
    pub cox: f64,
    pub cj: f64,
    pub cjsw: f64,
    pub pb: f64,
    pub mj: f64,
    pub mjsw: f64,
    pub fc: f64,
}

/// The instance's geometry.
#[repr(C)]
#[derive(Clone, Copy, Debug)]
pub struct GeometryRecord {
    pub rd: f64,
    pub rs: f64,
    pub nrd: f64,
    pub nrs: f64,
    pub isat_bs: f64,
    pub isat_bd: f64,
    pub w: f64,
    pub l: f64,
    pub w_over_l: f64,
    pub as_: f64,
    pub ad: f64,
    pub ps: f64,
    pub pd: f64,
    pub cgs_ov: f64,
    pub cgd_ov: f64,
    pub cgb_ov: f64,
    pub cox_wl: f64,
    pub cbs_bot: f64,
    pub cbs_sw: f64,
    pub cbd_bot: f64,
    pub cbd_sw: f64,
}

/// The parameters at the scaling's temperature.
#[repr(C)]
#[derive(Clone, Copy, Debug)]
pub struct ScaledRecord {
    pub isat_t_factor: f64,
    pub pb_t: f64,
    pub cj_t_factor: f64,
    pub cjsw_t_factor: f64,
    pub vto_t: f64,
    pub kp_t: f64,
    pub phi_t: f64,
}

/// The six nodes.
#[repr(C)]
#[derive(Clone, Copy, Debug)]
pub struct TerminalsRecord {
    pub drain_ext: NodeRecord,
    pub source_ext: NodeRecord,
    pub drain: NodeRecord,
    pub gate: NodeRecord,
    pub source: NodeRecord,
    pub bulk: NodeRecord,
}

/// What the last evaluation left.
#[repr(C)]
#[derive(Clone, Copy, Debug)]
pub struct PointRecord {
    pub ids_eval: f64,
    pub gbs: f64,
    pub gbd: f64,
    pub ibs_eq: f64,
    pub ibd_eq: f64,
    pub gm: f64,
    pub gds: f64,
    pub gmbs: f64,
    pub jeq: f64,
    pub vgs_eff_prev: f64,
    pub vds_eff_prev: f64,
}

/// What the last transient evaluation left.
#[repr(C)]
#[derive(Clone, Copy, Debug)]
pub struct ChargesRecord {
    pub cgs_eval: f64,
    pub cgd_eval: f64,
    pub cgb_eval: f64,
    pub q_gs_eval: f64,
    pub q_gd_eval: f64,
    pub q_gb_eval: f64,
    pub vbs_eval: f64,
    pub vbd_eval: f64,
    pub cbs_eval: f64,
    pub cbd_eval: f64,
    pub q_bs_eval: f64,
    pub q_bd_eval: f64,
}

/// A charge branch's past.
#[repr(C)]
#[derive(Clone, Copy, Debug)]
pub struct HistoryRecord {
    pub q_prev: f64,
    pub q_prev2: GivenRecord,
    pub i_prev: f64,
}

/// The pasts of the five charge branches: gate-source, gate-drain, gate-bulk, bulk-source, bulk-drain.
#[repr(C)]
#[derive(Clone, Copy, Debug)]
pub struct HistoriesRecord {
    pub gs_hist: HistoryRecord,
    pub gd_hist: HistoryRecord,
    pub gb_hist: HistoryRecord,
    pub bs_hist: HistoryRecord,
    pub bd_hist: HistoryRecord,
}

/// The device. `stage` is a `STAGE_..`; they count from 1, so memory of zeros is no device.
#[repr(C)]
#[derive(Clone, Debug)]
pub struct DeviceRecord {
    pub card: CardRecord,
    pub geometry: GeometryRecord,
    pub scaled: ScaledRecord,
    pub terminals: TerminalsRecord,
    pub point: PointRecord,
    pub charges: ChargesRecord,
    pub histories: HistoriesRecord,
    pub method: MethodRecord,
    pub stage: u64,
}

/// The device after a call and the number of the refusal, 0 where the call is accepted. A refused call's device is the one handed
/// in.
#[repr(C)]
#[derive(Clone, Debug)]
pub struct DeviceOutcome {
    pub refusal: u64,
    pub device: DeviceRecord,
}

/// The device after a card or geometry call, the count of unknown keys, and the number of the refusal. A refused call's device is
/// the record handed in, its count 0.
#[repr(C)]
#[derive(Clone, Debug)]
pub struct KeysOutcome {
    pub refusal: u64,
    pub unknown: usize,
    pub device: DeviceRecord,
}

/// A count, and the number of the refusal.
#[repr(C)]
#[derive(Clone, Copy, Debug)]
pub struct CountOutcome {
    pub refusal: u64,
    pub count: usize,
}

/// The nodes of a binding.
#[repr(C)]
#[derive(Clone, Copy, Debug)]
pub struct NodesRecord {
    pub drain: NodeRecord,
    pub gate: NodeRecord,
    pub source: NodeRecord,
    pub bulk: NodeRecord,
}

/// What an evaluation is handed besides the voltages, as [`Device::eval_at`](crate::Device::eval_at) takes it. Make it from
/// [`Conditions`](crate::Conditions), which have no unknown flag or tag; another number in their place is refused as
/// [`Refusal::Tag`](crate::Refusal::Tag), 100.
#[repr(C)]
#[derive(Clone, Copy, Debug)]
pub struct ConditionsRecord {
    /// In kelvin, 200 to 500.
    pub temperature: f64,
    /// In siemens, 0 to 1.
    pub gmin: f64,
    /// 0 or 1.
    pub limiter: u64,
    /// 0 or 1.
    pub transient: u64,
    /// Its tag is a `METHOD_..`, 0 to 3; a step that the method has is 1e-15 to 1 s.
    pub method: MethodRecord,
}

/// What an evaluation answers. In volts: the gate-source and drain-source voltages that the evaluation kept, times −1 for PMOS, and
/// the threshold in the same sense; the drain current in ampere as it flows, not flipped; in siemens gm, gds with gmin in it, gmbs.
#[repr(C)]
#[derive(Clone, Copy, Debug)]
pub struct AnswerRecord {
    pub vgs: f64,
    pub vds: f64,
    pub vth: f64,
    pub ids: f64,
    pub gm: f64,
    pub gds: f64,
    pub gmbs: f64,
}

/// What an evaluation answers that changes the record where it lies.
#[repr(C)]
#[derive(Clone, Copy, Debug)]
pub struct EvaluationReply {
    pub refusal: u64,
    pub answer: AnswerRecord,
}

/// A noise source, [`ABSENT`] or [`PRESENT`], from drain to source with its density; and the number of the refusal.
#[repr(C)]
#[derive(Clone, Copy, Debug)]
pub struct NoiseOutcome {
    pub refusal: u64,
    pub tag: u64,
    pub drain: NodeRecord,
    pub source: NodeRecord,
    pub density: f64,
}

/// A capacitor between two nodes, [`ABSENT`] or [`PRESENT`].
#[repr(C)]
#[derive(Clone, Copy, Debug)]
pub struct ReactanceRecord {
    pub tag: u64,
    pub pos: NodeRecord,
    pub neg: NodeRecord,
    pub capacitance: f64,
}

/// The five capacitors at the operating point, and the number of the refusal.
#[repr(C)]
#[derive(Clone, Copy, Debug)]
pub struct ReactancesOutcome {
    pub refusal: u64,
    pub gs: ReactanceRecord,
    pub gd: ReactanceRecord,
    pub gb: ReactanceRecord,
    pub bs: ReactanceRecord,
    pub bd: ReactanceRecord,
}

/// Where the cells of a bound device lie in a matrix, as [`Device::resolve`](crate::Device::resolve) answers it: for the nodes of one
/// binding, and for one pattern. Hold it beside the device.
#[repr(C)]
#[derive(Clone, Copy, Debug, PartialEq, Eq)]
pub struct Cells {
    /// The rows of the outer drain, outer source, drain, gate, source and bulk, [`CELL_GROUND`] for ground.
    pub nodes: [usize; 6],
    /// How many rows the pattern has.
    pub rows: usize,
    /// How many values the pattern has.
    pub values: usize,
    /// Where the values lie that every load adds to: with D and S for the outer nodes dg dd ds db, sg sd ss sb, DD Dd dD dd,
    /// SS Ss sS ss, bb bs sb ss, bb bd db dd. [`CELL_GROUND`] where an end is ground.
    pub places: [usize; 24],
    /// gg gs gd gb bg, for the gate's capacitances. [`CELL_ABSENT`] where the pattern has no such cell.
    pub gate_places: [usize; 5],
}

/// The cells, and the number of the refusal. A refused call's cells are zeros.
#[repr(C)]
#[derive(Clone, Copy, Debug)]
pub struct ResolveOutcome {
    pub refusal: u64,
    pub cells: Cells,
}

/// The lengths that a device's matrix pattern needs, and the number of the refusal. A refused call's lengths are 0.
#[repr(C)]
#[derive(Clone, Copy, Debug)]
pub struct LayoutOutcome {
    pub refusal: u64,
    pub columns: usize,
    pub rows: usize,
}
