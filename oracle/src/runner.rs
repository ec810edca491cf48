//! One device, its stage, and the calls of a script on it.

use std::collections::BTreeSet;
use std::slice::from_mut;
use std::sync::Arc;

use crate::bridge::{empty_device, Bank};
use crate::device::{Device, Discretisation, EvalFlags, NodeId, SimContext};
use crate::format::Written;
use crate::layout::{Layout, Lent};
use crate::mna::{inside::pattern_of, MnaMatrix};
use crate::mosfet1::{inside::View, Mosfet1};
use crate::rows::{self, Cells, Keys, Matrix, Position, Stage, Table};

pub type Answer = Result<String, u8>;

pub struct Runner {
    device: Option<Mosfet1>,
    stage: Stage,
    /// The cells of the last accepted lookup, and the pattern that they were looked up in.
    cells: Option<Cells>,
    pattern: Matrix,
    /// Devices held by number. `place` puts them there.
    pub bank: Bank,
}

/// What an evaluation is handed besides the voltages.
pub struct Conditions {
    pub transient: bool,
    pub kelvin: f64,
    pub gmin: f64,
    pub limiter: bool,
    pub method: Option<Discretisation>,
}

pub fn at_temperature(kelvin: f64) -> SimContext {
    SimContext { temperature: kelvin, ..SimContext::default() }
}

/// The answer of a call that names unknown keys. The Rust gives their names, the table their places: both must say the same.
fn with_places(word: &str, keys: &Keys, table: Table, unknown: Vec<String>) -> String {
    let named = keys.named();
    let places = keys.unknown(table);
    let names: Vec<&String> = places.iter().map(|at| &named[*at].0).collect();
    assert_eq!(names, unknown.iter().collect::<Vec<_>>(), "unknown keys");
    places.iter().fold(word.to_string(), |text, at| format!("{text} {at}"))
}

fn branch(pos: NodeId, neg: NodeId, value: f64) -> String {
    format!(" {}:{}:{}", pos.written(), neg.written(), value.written())
}

impl Runner {
    pub fn new() -> Runner {
        Runner { device: None, stage: Stage::NoDevice, cells: None, pattern: Matrix::default(), bank: Bank::new() }
    }

    fn view(&self) -> Option<View> {
        self.device.as_ref().map(Mosfet1::view)
    }

    /// The device of a call that the rows let pass.
    fn accepted(&mut self, stage: Stage) -> &mut Mosfet1 {
        self.stage = self.stage.max(stage);
        self.device.as_mut().expect("a row refuses calls before the card")
    }

    pub fn card(&mut self, is_pmos: bool, keys: &Keys) -> Answer {
        rows::card(keys)?;
        let (device, unknown) = Mosfet1::from_model_params(is_pmos, &keys.named());
        self.device = Some(device);
        self.stage = Stage::Card;
        Ok(with_places("card", keys, Table::Card, unknown))
    }

    pub fn geometry(&mut self, keys: &Keys) -> Answer {
        rows::geometry(self.stage, self.view().as_ref(), keys)?;
        let device = self.accepted(Stage::Geometry);
        let unknown = device.set_instance_params(&keys.named());
        device.validate().expect("row 5");
        Ok(with_places("geometry", keys, Table::Geometry, unknown))
    }

    pub fn scale(&mut self, kelvin: f64) -> Answer {
        rows::scaling(self.stage, self.view().as_ref(), kelvin)?;
        self.accepted(Stage::Scaled).setup_model(&at_temperature(kelvin));
        Ok("scale".to_string())
    }

    pub fn bind(&mut self, four: [NodeId; 4], first: u64) -> Answer {
        let nodes = rows::binding_nodes(self.view().as_ref(), four, first);
        rows::binding(self.stage, &nodes)?;
        let device = self.accepted(Stage::Bound);
        device.setup_instance(&four, &SimContext::default());
        let extra = device.num_extra_nodes();
        if extra > 0 {
            device.bind_extra_nodes(first as usize);
        }
        let bound = device.view().nodes;
        assert_eq!(bound.map(|node| node.map(|n| n as u128)), nodes, "the nodes that row 8 tested");
        Ok(format!("bind {extra} {} {}", bound[0].written(), bound[2].written()))
    }

    pub fn extra(&mut self) -> Answer {
        rows::extra(self.stage)?;
        Ok(format!("extra {}", self.accepted(Stage::Geometry).num_extra_nodes()))
    }

    /// Lays the cells out if the lent slices have room.
    pub fn lay_out(&mut self, mut lent: Lent) -> Answer {
        rows::layout(self.stage, self.view().as_ref())?;
        let layout = Layout::of(&self.accepted(Stage::Bound).view());
        if layout.fits(&lent) {
            layout.write(&mut lent);
            if self.stage >= Stage::Evaluated {
                self.load_on(&layout, layout.matrix(&lent));
            }
        }
        let slices = [lent.columns[..].written(), lent.offsets[..].written(), lent.lengths[..].written()];
        Ok(format!("cells {} {} {}", layout.cells.len(), layout.rows, slices.join(" ")))
    }

    /// Loads of both kinds on what was laid out. No row refuses them, the Rust finds each of its cells there, and without a pattern it
    /// makes none but those of the layout: all of them where every charge branch has a capacitance. Of the device only the places that
    /// the Rust found last change, which it looks up anew for each load here.
    fn load_on(&mut self, layout: &Layout, matrix: Matrix) {
        for alpha in [None, Some(1.0)] {
            let mut rhs = vec![0.0; layout.rows];
            let refused = rows::load(self.stage, self.view().as_ref(), alpha, &rhs, &matrix);
            assert_eq!(refused, Ok(()), "a load on the cells laid out");
            let device = self.accepted(Stage::Evaluated);
            load_residual(device, alpha, &mut rhs);
            loaded(from_mut(device), alpha, &matrix);
            let made = made_cells(device, alpha, layout.rows);
            assert!(made.is_subset(&layout.cells), "a cell that is not laid out");
            let every_branch = alpha.is_some() && device.view().branches.iter().all(|(_, _, c)| *c != 0.0);
            assert!(!every_branch || made == layout.cells, "a cell that no load needs");
        }
    }

    pub fn eval(&mut self, k: Conditions, x: &[f64]) -> Answer {
        rows::evaluation(self.stage, self.view().as_ref(), k.kelvin, k.gmin, &k.method, x)?;
        let device = self.accepted(Stage::Evaluated);
        let context = SimContext {
            gmin: k.gmin,
            jlim_enabled: k.limiter,
            discretisation: k.method,
            ..at_temperature(k.kelvin)
        };
        let flags = if k.transient { EvalFlags::tran() } else { EvalFlags::dc() };
        let threshold = device.threshold_at(x);
        device.eval(x, flags, &context);
        Ok(format!("eval {}", device.answer(threshold).map(|v| v.written()).join(" ")))
    }

    pub fn load(&mut self, alpha: Option<f64>, mut rhs: Vec<f64>, mut matrix: Matrix) -> Answer {
        rows::load(self.stage, self.view().as_ref(), alpha, &rhs, &matrix)?;
        let device = self.accepted(Stage::Evaluated);
        load_residual(device, alpha, &mut rhs);
        matrix.values = loaded(from_mut(device), alpha, &matrix);
        Ok(format!("load {} {}", rhs[..].written(), matrix.values[..].written()))
    }

    /// Looks the cells up, by this harness's own search and by the Rust's, which must say the same.
    pub fn resolve(&mut self, columns: Vec<u32>, rows: Vec<(u64, u64)>) -> Answer {
        let pattern = Matrix { values: vec![0.0; columns.len()], columns, rows };
        rows::resolving(self.stage, self.view().as_ref(), &pattern)?;
        let device = self.device.as_mut().expect("row 10");
        let cells = Cells::of(&device.view(), &pattern);
        device.resolve_cells(&pattern_of(&pattern.all_columns()));
        let begins = |r: usize| pattern.rows[r].0;
        let theirs = device.resolved_places().into_iter().map(|cell| cell.map(|(r, slot)| begins(r) + slot as u64));
        let ours = cells.kept(&device.view()).into_iter().map(|((r, c), place)| r.and(c).map(|_| place));
        assert!(theirs.eq(ours.take(24)), "two lookups of the cells");
        (self.cells, self.pattern) = (Some(cells), pattern);
        Ok("resolve".to_string())
    }

    /// A load by the kept cells, or None where none are kept.
    pub fn load_resolved(&mut self, alpha: Option<f64>, rhs: Vec<f64>, values: Vec<f64>) -> Option<Answer> {
        let cells = self.cells.take()?;
        let answer = self.load_by(&cells, alpha, rhs, values);
        self.cells = Some(cells);
        Some(answer)
    }

    /// The Rust loads a matrix of the pattern that the cells were looked up in, and one of the kept cells alone: both must give the
    /// same.
    fn load_by(&mut self, cells: &Cells, alpha: Option<f64>, mut rhs: Vec<f64>, values: Vec<f64>) -> Answer {
        rows::resolved_load(self.stage, self.view().as_ref(), alpha, cells, rhs.len(), values.len())?;
        let device = self.device.as_mut().expect("row 10");
        load_residual(device, alpha, &mut rhs);
        self.pattern.values = values;
        let by_places = loaded_at(device, alpha, &cells.kept(&device.view()), &self.pattern.values);
        let by_pattern = loaded(from_mut(device), alpha, &self.pattern);
        assert_eq!(by_places[..].written(), by_pattern[..].written(), "the kept places and their pattern");
        Ok(format!("loadresolved {} {}", rhs[..].written(), by_places[..].written()))
    }

    /// The present device with its stage, copied to the bank. Before any card it is that of an empty one.
    pub fn place(&mut self, at: usize) -> Answer {
        let device = self.device.as_ref().map_or_else(empty_device, Mosfet1::copied);
        self.bank.place(at, device, self.stage.max(Stage::Card));
        Ok("place".to_string())
    }

    pub fn commit(&mut self, x: &[f64]) -> Answer {
        rows::commit(self.stage, self.view().as_ref(), x)?;
        self.accepted(Stage::Evaluated).commit_timestep(x);
        Ok("commit".to_string())
    }

    pub fn noise(&mut self, kelvin: f64, freq: f64) -> Answer {
        rows::noise(self.stage, kelvin)?;
        let sources = self.accepted(Stage::Evaluated).noise_sources(&at_temperature(kelvin), freq);
        assert!(sources.len() < 2);
        Ok(sources.into_iter().fold("noise".to_string(), |text, (p, n, s)| text + &branch(p, n, s)))
    }

    pub fn reactances(&mut self) -> Answer {
        rows::reactances(self.stage)?;
        let found = self.accepted(Stage::Evaluated).small_signal_reactances();
        Ok(found.into_iter().fold("reactances".to_string(), |text, b| text + &branch(b.pos, b.neg, b.value)))
    }

    pub fn state(&self) -> String {
        let Some(device) = &self.device else { return "state nothing".to_string() };
        device.state().iter().fold("state".to_string(), |text, (name, value)| format!("{text} {name}={value}"))
    }
}

pub fn load_residual(device: &Mosfet1, alpha: Option<f64>, rhs: &mut [f64]) {
    match alpha {
        None => device.load_residual(rhs),
        Some(a) => device.load_residual_tran(rhs, a),
    }
}

fn load_jacobian(device: &Mosfet1, alpha: Option<f64>, matrix: &mut MnaMatrix) {
    match alpha {
        None => device.load_jacobian(matrix),
        Some(a) => device.load_jacobian_tran(matrix, a),
    }
}

/// The values after a load into a matrix that has the kept cells alone, each filled from its place and written back there.
fn loaded_at(device: &Mosfet1, alpha: Option<f64>, kept: &[(Position, u64)], values: &[f64]) -> Vec<f64> {
    let cells: Vec<(usize, usize, usize)> = kept
        .iter()
        .filter_map(|((r, c), place)| Some(((*r)?, (*c)?, *place as usize)))
        .filter(|(_, _, place)| *place < values.len())
        .collect();
    let mut made = MnaMatrix::zeros(cells.iter().map(|(r, _, _)| r + 1).max().unwrap_or(0));
    for (r, c, place) in &cells {
        made.a[*r][*c] = values[*place];
    }
    load_jacobian(device, alpha, &mut made);
    let mut loaded = values.to_vec();
    for (r, c, place) in &cells {
        loaded[*place] = made.a[*r][*c];
    }
    loaded
}

/// The cells that the load makes in a matrix that has none.
fn made_cells(device: &Mosfet1, alpha: Option<f64>, rows: usize) -> BTreeSet<(usize, usize)> {
    let mut made = MnaMatrix::zeros(rows);
    load_jacobian(device, alpha, &mut made);
    let cells_of = |r: usize| made.a[r].entries().0.iter().map(move |column| (r, *column as usize));
    (0..rows).flat_map(cells_of).collect()
}

/// The matrix's values after the devices' loads, one after another. The Rust writes a cell by searching its row, or at a place that it
/// found once for a pattern: both ways are taken and must give the same.
pub fn loaded(devices: &mut [Mosfet1], alpha: Option<f64>, matrix: &Matrix) -> Vec<f64> {
    let searched = loaded_once(devices, alpha, matrix, false);
    let resolved = loaded_once(devices, alpha, matrix, true);
    assert_eq!(searched[..].written(), resolved[..].written(), "two ways to a cell");
    searched
}

fn loaded_once(devices: &mut [Mosfet1], alpha: Option<f64>, matrix: &Matrix, resolve: bool) -> Vec<f64> {
    let columns = matrix.all_columns();
    let pattern = Arc::new(pattern_of(&columns));
    if resolve {
        devices.iter_mut().for_each(|device| device.resolve_cells(&pattern));
    }
    let mut made = MnaMatrix::with_pattern(columns.len(), pattern);
    for (r, (offset, _)) in matrix.rows.iter().enumerate() {
        for (k, column) in columns[r].iter().enumerate() {
            made.a[r][*column as usize] = matrix.values[*offset as usize + k];
        }
    }
    devices.iter().for_each(|device| load_jacobian(device, alpha, &mut made));
    let mut values = matrix.values.clone();
    for (r, (offset, length)) in matrix.rows.iter().enumerate() {
        let (cols, row) = made.a[r].entries();
        assert_eq!(cols, columns[r], "a cell was inserted");
        values[*offset as usize..][..*length as usize].copy_from_slice(row);
    }
    values
}
