//! The refusal table of document 01, before any call of the Rust. Written from that paper and the readings of docs/DECISIONS.md.
//!
//! Each call's function goes through its rows in the order of their numbers, so that the lowest that applies is the one answered. A row
//! that speaks of something that does not exist yet does not apply. Of the Rust it takes only what the paper points to: the `MOSFET`
//! list, `scaled_phi` and `scaled_junction_potential`, and the device's nodes, cells and capacitances. The rows of the number of extra
//! nodes, of a layout of cells, of a lookup of them and of a load by them are not the paper's but those of docs/USING.md. Row 14 is
//! document 02's and comes before the others.

use crate::device::{Discretisation, NodeId};
use crate::mosfet1::inside::View;
use crate::temperature::{scaled_junction_potential, scaled_phi};
use crate::unmodelled;

pub type Row = Result<(), u8>;

/// A cell by its row and column.
pub type Position = (NodeId, NodeId);

/// How far a device has come. The stages form a line.
#[derive(Clone, Copy, PartialEq, Eq, PartialOrd, Ord)]
pub enum Stage {
    NoDevice,
    Card,
    Geometry,
    Scaled,
    Bound,
    Evaluated,
}

fn row(number: u8, applies: bool) -> Row {
    match applies {
        true => Err(number),
        false => Ok(()),
    }
}

fn inside(x: f64, low: f64, high: f64) -> bool {
    low <= x && x <= high
}

/// Rows 1 and 12: pairs of offset and length in a buffer of `size`.
fn misplaced(pairs: &[(u64, u64)], size: usize) -> bool {
    let mut end = 0u64;
    for (offset, length) in pairs {
        let starts_early = *offset < end;
        end = match offset.checked_add(*length) {
            Some(sum) if !starts_early && sum <= size as u64 => sum,
            _ => return true,
        };
    }
    false
}

fn part<T>(buffer: &[T], pair: (u64, u64)) -> &[T] {
    &buffer[pair.0 as usize..][..pair.1 as usize]
}

/// What a call's table says of a key.
enum Key {
    Range(f64, f64),
    ZeroOrRange(f64, f64),
    Tnom,
    Unread,
    Unknown,
}

/// Which call reads the keys.
#[derive(Clone, Copy)]
pub enum Table {
    Card,
    Geometry,
}

impl Table {
    fn key(self, name: &str) -> Key {
        match self {
            Table::Card => card_key(name),
            Table::Geometry => geometry_key(name),
        }
    }
}

fn card_key(name: &str) -> Key {
    match name {
        "vto" | "vth0" | "vtho" => Key::Range(-100.0, 100.0),
        "kp" | "gamma" => Key::Range(0.0, 100.0),
        "uo" | "u0" => Key::Range(0.0, 1e5),
        "is" | "kf" | "cgso" | "cgdo" | "cgbo" | "cox" | "cj" | "cjsw" => Key::Range(0.0, 1.0),
        "js" => Key::Range(0.0, 1e6),
        "lambda" => Key::Range(0.0, 10.0),
        "phi" | "pb" => Key::Range(0.1, 10.0),
        "rd" | "rs" => Key::ZeroOrRange(1e-6, 1e9),
        "rsh" => Key::ZeroOrRange(1e-6, 1e6),
        "af" => Key::Range(0.25, 4.0),
        "tox" => Key::Range(1e-10, 1e-4),
        "mj" | "mjsw" => Key::Range(0.0, 0.9),
        "fc" => Key::Range(0.0, 0.95),
        "tnom" => Key::Tnom,
        _ if unmodelled::is_listed(unmodelled::MOSFET, name) => Key::Unread,
        _ => Key::Unknown,
    }
}

fn geometry_key(name: &str) -> Key {
    match name {
        "w" | "l" => Key::Range(1e-9, 1.0),
        "as" | "ad" => Key::Range(0.0, 1.0),
        "ps" | "pd" => Key::Range(0.0, 1e3),
        "nrd" | "nrs" => Key::ZeroOrRange(1e-6, 1e6),
        _ => Key::Unknown,
    }
}

/// Keys as they are lent: one buffer of bytes, pairs of offset and length, values, and how many places the lent list has.
pub struct Keys {
    pub bytes: Vec<u8>,
    pub pairs: Vec<(u64, u64)>,
    pub values: Vec<f64>,
    pub room: u64,
}

impl Keys {
    /// The keys as the Rust takes them. Rows 1 and 2 come first.
    pub fn named(&self) -> Vec<(String, f64)> {
        let name = |pair: &(u64, u64)| String::from_utf8(part(&self.bytes, *pair).to_vec()).expect("row 2");
        self.pairs.iter().map(name).zip(self.values.iter().copied()).collect()
    }

    fn judged(&self, table: Table) -> Vec<(Key, f64)> {
        self.named().into_iter().map(|(name, value)| (table.key(&name.to_ascii_lowercase()), value)).collect()
    }

    /// The places of the unknown keys.
    pub fn unknown(&self, table: Table) -> Vec<usize> {
        let judged = self.judged(table);
        (0..judged.len()).filter(|at| matches!(judged[*at].0, Key::Unknown)).collect()
    }

    fn rows_1_to_4(&self, table: Table) -> Row {
        row(1, misplaced(&self.pairs, self.bytes.len()) || self.pairs.len() != self.values.len())?;
        row(2, self.pairs.iter().any(|pair| !part(&self.bytes, *pair).is_ascii()))?;
        row(3, self.unknown(table).len() as u64 > self.room)?;
        let out_of_range = |(key, value): &(Key, f64)| match key {
            Key::Range(low, high) => !inside(*value, *low, *high),
            Key::ZeroOrRange(low, high) => *value != 0.0 && !inside(*value, *low, *high),
            Key::Tnom | Key::Unread | Key::Unknown => false,
        };
        row(4, self.judged(table).iter().any(out_of_range))
    }

    /// What the last key of this name says.
    fn last(&self, name: &str, default: f64) -> f64 {
        let named = self.named();
        let found = named.iter().rev().find(|(key, _)| key.to_ascii_lowercase() == name);
        found.map_or(default, |(_, value)| *value)
    }
}

fn bad_temperature(kelvin: f64) -> bool {
    !inside(kelvin, 200.0, 500.0)
}

pub fn card(keys: &Keys) -> Row {
    keys.rows_1_to_4(Table::Card)?;
    let bad_tnom = |(key, celsius): &(Key, f64)| matches!(key, Key::Tnom) && bad_temperature(celsius + 273.15);
    row(6, keys.judged(Table::Card).iter().any(bad_tnom))
}

pub fn geometry(stage: Stage, device: Option<&View>, keys: &Keys) -> Row {
    keys.rows_1_to_4(Table::Geometry)?;
    if let Some(d) = device {
        let norm = keys.last("w", 1e-4) * keys.last("l", 1e-4) * d.cox;
        row(5, d.kf > 0.0 && !(norm > 0.0 && norm.is_finite()))?;
    }
    row(10, stage < Stage::Card || stage >= Stage::Bound)
}

pub fn scaling(stage: Stage, device: Option<&View>, kelvin: f64) -> Row {
    row(6, bad_temperature(kelvin))?;
    if let Some(d) = device {
        let phi = scaled_phi(d.phi, kelvin, d.tnom);
        let pb = scaled_junction_potential(d.pb, kelvin, d.tnom);
        row(7, phi < 0.05 || pb < 0.05)?;
    }
    row(10, stage < Stage::Geometry)
}

/// The six nodes that a binding would set, wide enough for an index beyond the machine's numbers.
pub fn binding_nodes(device: Option<&View>, four: [NodeId; 4], first: u64) -> [Option<u128>; 6] {
    let [d, g, s, b] = four.map(|node| node.map(|n| n as u128));
    let (rd, rs) = device.map_or((0.0, 0.0), |view| (view.rd, view.rs));
    let first = u128::from(first);
    let drain = if rd > 0.0 { Some(first) } else { d };
    let source = if rs > 0.0 { Some(first + u128::from(rd > 0.0)) } else { s };
    [drain, g, source, b, d, s]
}

pub fn binding(stage: Stage, nodes: &[Option<u128>; 6]) -> Row {
    row(8, nodes.iter().flatten().any(|node| *node > u128::from(u32::MAX)))?;
    row(10, stage < Stage::Scaled || stage >= Stage::Evaluated)
}

pub fn extra(stage: Stage) -> Row {
    row(10, stage < Stage::Geometry)
}

/// A layout of the cells. No binding of a script sets a node that row 8 refuses here.
pub fn layout(stage: Stage, device: Option<&View>) -> Row {
    let bound = device.filter(|_| stage >= Stage::Bound);
    row(8, bound.is_some_and(|d| d.nodes.iter().flatten().any(|node| *node > u32::MAX as usize)))?;
    row(10, bound.is_none())
}

fn beyond(nodes: &[NodeId], length: usize) -> bool {
    nodes.iter().flatten().any(|node| *node >= length)
}

/// Rows 8 and 9 of a call that reads the four inner voltages.
fn voltages(stage: Stage, device: Option<&View>, x: &[f64]) -> Row {
    let Some(d) = device.filter(|_| stage >= Stage::Bound) else { return Ok(()) };
    row(8, beyond(&d.nodes, x.len()))?;
    row(9, d.nodes[..4].iter().flatten().any(|node| !inside(x[*node], -1000.0, 1000.0)))
}

pub fn evaluation(
    stage: Stage,
    device: Option<&View>,
    kelvin: f64,
    gmin: f64,
    method: &Option<Discretisation>,
    x: &[f64],
) -> Row {
    row(6, bad_temperature(kelvin) || !inside(gmin, 0.0, 1.0))?;
    voltages(stage, device, x)?;
    row(10, stage < Stage::Bound)?;
    let steps = method.iter().flat_map(|d| [Some(d.h), d.gear2_h_prev]).flatten();
    row(11, steps.into_iter().any(|h| !inside(h, 1e-15, 1.0)))
}

/// The lent matrix.
#[derive(Default)]
pub struct Matrix {
    pub columns: Vec<u32>,
    pub rows: Vec<(u64, u64)>,
    pub values: Vec<f64>,
}

impl Matrix {
    fn malformed(&self) -> bool {
        misplaced(&self.rows, self.columns.len())
            || self.values.len() != self.columns.len()
            || (0..self.rows.len()).any(|r| !self.row(r).windows(2).all(|two| two[0] < two[1]))
    }

    /// The columns of a row whose pair is in place.
    pub fn row(&self, r: usize) -> &[u32] {
        part(&self.columns, self.rows[r])
    }

    pub fn all_columns(&self) -> Vec<Vec<u32>> {
        (0..self.rows.len()).map(|r| self.row(r).to_vec()).collect()
    }

    /// The place of a cell without a ground end, if the matrix has it.
    fn place(&self, r: usize, c: usize) -> Option<u64> {
        let at = self.row(r).iter().position(|column| *column as usize == c)?;
        Some(self.rows[r].0 + at as u64)
    }

    fn lacks(&self, cell: &Position) -> bool {
        match cell {
            (Some(r), Some(c)) => self.place(*r, *c).is_none(),
            _ => false,
        }
    }
}

/// The cells that a load adds to besides the 24 pairs: the four of each branch with a capacitance, if the load is transient.
fn of_branches(d: &View, transient: bool) -> Vec<Position> {
    let loaded = d.branches.iter().filter(|(_, _, c)| transient && *c != 0.0);
    loaded.flat_map(|(a, b, _)| [(*a, *a), (*a, *b), (*b, *b), (*b, *a)]).collect()
}

/// `alpha`, None for a direct-current load, out of its range where it is read.
fn bad_alpha(d: &View, alpha: Option<f64>) -> bool {
    alpha.is_some_and(|a| !d.has_step && !inside(a, 1.0, 1e16))
}

/// Row 8 of a load into so many entries.
fn beyond_slices(d: &View, entries: usize, matrix: &Matrix) -> bool {
    beyond(&d.nodes, entries) || beyond(&d.nodes, matrix.rows.len())
}

/// Row 13: a needed cell is missing.
fn lacks_cells(d: &View, alpha: Option<f64>, matrix: &Matrix) -> bool {
    d.pairs.into_iter().chain(of_branches(d, alpha.is_some())).any(|cell| matrix.lacks(&cell))
}

/// `alpha` is None for a direct-current load.
pub fn load(stage: Stage, device: Option<&View>, alpha: Option<f64>, rhs: &[f64], matrix: &Matrix) -> Row {
    let bound = device.filter(|_| stage >= Stage::Bound);
    if let Some(d) = bound {
        row(8, beyond_slices(d, rhs.len(), matrix))?;
    }
    row(10, stage < Stage::Evaluated)?;
    let d = bound.expect("row 10");
    row(11, bad_alpha(d, alpha))?;
    row(12, matrix.malformed())?;
    row(13, lacks_cells(d, alpha, matrix))
}

/// Whether two runs share a row of the buffer or one leaves it. Each run takes its rows; an empty one takes none.
fn runs_collide(runs: &[(u64, u64)], length: usize) -> bool {
    let mut taken = vec![false; length];
    for (start, size) in runs {
        let Some(end) = start.checked_add(*size).filter(|end| *end <= length as u64) else { return true };
        let rows = &mut taken[*start as usize..end as usize];
        if rows.contains(&true) {
            return true;
        }
        rows.fill(true);
    }
    false
}

/// Row 14 of a load of so many devices; `block` is the number of the block's run, None for the whole bridge.
pub fn blocks(count: usize, runs: &[(u64, u64)], block: Option<u64>, length: usize) -> Row {
    row(14, count > 64 || runs_collide(runs, length) || block.is_some_and(|k| k >= runs.len() as u64))
}

/// The rows behind 14, each of them asked of all devices before the next. The devices are loaded into so many entries.
pub fn loads(devices: &[(Stage, View)], alpha: Option<f64>, entries: usize, matrix: &Matrix) -> Row {
    row(8, devices.iter().any(|(stage, d)| *stage >= Stage::Bound && beyond_slices(d, entries, matrix)))?;
    row(10, devices.iter().any(|(stage, _)| *stage < Stage::Evaluated))?;
    row(11, devices.iter().any(|(_, d)| bad_alpha(d, alpha)))?;
    row(12, matrix.malformed())?;
    row(13, devices.iter().any(|(_, d)| lacks_cells(d, alpha, matrix)))
}

/// What a lookup keeps: the outer drain and source, drain, gate, source and bulk by their rows; how many rows and values the pattern
/// has; the places of the 24 pairs and of gg, gs, gd, gb, bg. At first all are 0.
#[derive(Clone, Default)]
pub struct Cells {
    nodes: [u64; 6],
    rows: u64,
    values: u64,
    places: [u64; 24],
    gate_places: [u64; 5],
}

/// In place of a node that is ground, and of a cell with such an end.
const GROUND: u64 = u64::MAX;

/// In place of a cell that the pattern lacks.
const ABSENT: u64 = u64::MAX - 1;

fn numbered(node: NodeId) -> u64 {
    node.map_or(GROUND, |n| n as u64)
}

fn node_numbers(d: &View) -> [u64; 6] {
    let [drain, gate, source, bulk, outer_drain, outer_source] = d.nodes.map(numbered);
    [outer_drain, outer_source, drain, gate, source, bulk]
}

fn gate_pairs(d: &View) -> [Position; 5] {
    let [drain, g, source, b, ..] = d.nodes;
    [(g, g), (g, source), (g, drain), (g, b), (b, g)]
}

impl Cells {
    /// The cells of a device in a pattern that no row refuses.
    pub fn of(d: &View, pattern: &Matrix) -> Cells {
        let place = |cell: Position| match cell {
            (Some(r), Some(c)) => pattern.place(r, c).unwrap_or(ABSENT),
            _ => GROUND,
        };
        Cells {
            nodes: node_numbers(d),
            rows: pattern.rows.len() as u64,
            values: pattern.columns.len() as u64,
            places: d.pairs.map(place),
            gate_places: gate_pairs(d).map(place),
        }
    }

    /// The positions of a device and the places that are kept for them.
    pub fn kept(&self, d: &View) -> Vec<(Position, u64)> {
        let positions = d.pairs.into_iter().chain(gate_pairs(d));
        positions.zip(self.places.into_iter().chain(self.gate_places)).collect()
    }
}

pub fn resolving(stage: Stage, device: Option<&View>, pattern: &Matrix) -> Row {
    let bound = device.filter(|_| stage >= Stage::Bound);
    row(8, bound.is_some_and(|d| beyond(&d.nodes, pattern.rows.len())))?;
    row(10, bound.is_none())?;
    row(12, pattern.malformed())?;
    row(13, bound.expect("row 10").pairs.iter().any(|cell| pattern.lacks(cell)))
}

/// A load by kept cells, of a right-hand side of `rows` entries and so many values.
pub fn resolved_load(stage: Stage, device: Option<&View>, alpha: Option<f64>, cells: &Cells, rows: usize, values: usize) -> Row {
    let bound = device.filter(|_| stage >= Stage::Bound);
    if let Some(d) = bound {
        row(8, beyond(&d.nodes, rows) || d.nodes.iter().flatten().any(|node| *node as u64 >= cells.rows))?;
    }
    row(10, stage < Stage::Evaluated)?;
    let d = bound.expect("row 10");
    row(11, bad_alpha(d, alpha))?;
    row(12, values as u64 != cells.values)?;
    let kept = cells.kept(d);
    let outside = |cell: &Position| match cell {
        (Some(_), Some(_)) => kept.iter().find(|(at, _)| at == cell).map_or(true, |(_, place)| *place >= values as u64),
        _ => false,
    };
    row(13, cells.nodes != node_numbers(d) || d.pairs.iter().chain(&of_branches(d, alpha.is_some())).any(outside))
}

pub fn commit(stage: Stage, device: Option<&View>, x: &[f64]) -> Row {
    voltages(stage, device, x)?;
    row(10, stage < Stage::Evaluated)
}

pub fn noise(stage: Stage, kelvin: f64) -> Row {
    row(6, bad_temperature(kelvin))?;
    row(10, stage < Stage::Evaluated)
}

pub fn reactances(stage: Stage) -> Row {
    row(10, stage < Stage::Evaluated)
}
