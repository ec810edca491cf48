//! The same device on both sides: the port through its library, searching or by resolved cells, and the published Rust, whose cells
//! are resolved.
use crate::cases::{Case, GEOMETRY, GMIN, KELVIN};

/// A pattern by the columns of each row.
pub type Columns = [Vec<u32>];

/// The terminals' rows: drain, gate, source, bulk; none is ground.
pub type Terminals = [Option<usize>; 4];

/// A matrix of one side.
pub trait Store {
    fn of(columns: &Columns) -> Self;
    fn clear(&mut self);
    /// The values row by row.
    fn values(&self) -> Vec<f64>;
}

/// A device of one side, bound to a matrix of that side.
pub trait Model {
    type Matrix: Store;
    fn bound(case: &Case, terminals: Terminals, matrix: &Self::Matrix) -> Self;
    fn eval(&mut self, x: &[f64]);
    fn load(&self, rhs: &mut [f64], matrix: &mut Self::Matrix);
}

/// Devices in one matrix.
pub struct System<M: Model> {
    devices: Vec<M>,
    matrix: M::Matrix,
    pub rhs: Vec<f64>,
}

impl<M: Model> System<M> {
    /// A device for each case and its terminals.
    pub fn new(columns: &Columns, all: &[(&Case, Terminals)]) -> System<M> {
        let matrix = M::Matrix::of(columns);
        let devices = all.iter().map(|(case, terminals)| M::bound(case, *terminals, &matrix)).collect();
        System { devices, matrix, rhs: vec![0.0; columns.len()] }
    }

    pub fn eval(&mut self, x: &[f64]) {
        self.devices.iter_mut().for_each(|device| device.eval(x));
    }

    pub fn load(&mut self) {
        self.devices.iter().for_each(|device| device.load(&mut self.rhs, &mut self.matrix));
    }

    fn clear(&mut self) {
        self.rhs.fill(0.0);
        self.matrix.clear();
    }

    /// Cleared, then loaded.
    pub fn reload(&mut self) {
        self.clear();
        self.load();
    }

    /// An iteration as a simulator makes it: cleared, then device by device evaluated and loaded.
    pub fn iterate(&mut self, x: &[f64]) {
        self.clear();
        for device in &mut self.devices {
            device.eval(x);
            device.load(&mut self.rhs, &mut self.matrix);
        }
    }

    pub fn values(&self) -> Vec<f64> {
        self.matrix.values()
    }
}

macro_rules! rust_model {
    ($module:ident, $krate:ident) => {
        pub mod $module {
            use super::*;
            use std::sync::Arc;
            use $krate::device::{Device, Discretisation, EvalFlags, SimContext};
            use $krate::mna::{MnaMatrix, Pattern};
            use $krate::models::mosfet1::Mosfet1;
            use $krate::tran::IntegratorMode;

            pub struct Resolved {
                device: Mosfet1,
                context: SimContext,
                transient: bool,
            }

            fn named(keys: &[(&str, f64)]) -> Vec<(String, f64)> {
                keys.iter().map(|(k, v)| (k.to_string(), *v)).collect()
            }

            pub struct Sparse {
                matrix: MnaMatrix,
                pattern: Arc<Pattern>,
            }

            impl Store for Sparse {
                fn of(columns: &Columns) -> Sparse {
                    let pattern = Arc::new(Pattern::of_columns(columns));
                    Sparse { matrix: MnaMatrix::with_pattern(columns.len(), pattern.clone()), pattern }
                }

                fn clear(&mut self) {
                    self.matrix.clear();
                }

                fn values(&self) -> Vec<f64> {
                    self.matrix.a.iter().flat_map(|row| row.entries().1.to_vec()).collect()
                }
            }

            impl Model for Resolved {
                type Matrix = Sparse;

                fn bound(case: &Case, terminals: Terminals, matrix: &Sparse) -> Resolved {
                    let (mut device, _) = Mosfet1::from_model_params(case.pmos, &named(&case.keys()));
                    device.set_instance_params(&named(&GEOMETRY));
                    let mode = Discretisation { mode: IntegratorMode::BackwardEuler, h: case.step, gear2_h_prev: None };
                    let context = SimContext {
                        temperature: KELVIN,
                        gmin: GMIN,
                        jlim_enabled: true,
                        discretisation: case.transient.then_some(mode),
                        ..SimContext::default()
                    };
                    device.setup_model(&context);
                    device.setup_instance(&terminals, &context);
                    device.resolve_cells(&matrix.pattern);
                    Resolved { device, context, transient: case.transient }
                }

                fn eval(&mut self, x: &[f64]) {
                    let flags = if self.transient { EvalFlags::tran() } else { EvalFlags::dc() };
                    self.device.eval(x, flags, &self.context);
                }

                fn load(&self, rhs: &mut [f64], m: &mut Sparse) {
                    if self.transient {
                        self.device.load_residual_tran(rhs, 0.0);
                        self.device.load_jacobian_tran(&mut m.matrix, 0.0);
                    } else {
                        self.device.load_residual(rhs);
                        self.device.load_jacobian(&mut m.matrix);
                    }
                }
            }
        }
    };
}

rust_model!(rust_c, original);
rust_model!(rust_port, with_port);

pub mod port {
    use super::*;
    use mivtolgya::{load_bridge, load_bridge_resolved};
    use mivtolgya::{Cells, Conditions, ConditionsRecord, Device, Load, Matrix, Method, Node, Polarity, Runs};

    /// Values with their pattern.
    pub struct Laid {
        values: Vec<f64>,
        columns: Vec<u32>,
        offsets: Vec<usize>,
        lengths: Vec<usize>,
    }

    impl Laid {
        fn matrix(&mut self) -> Matrix<'_> {
            Matrix { values: &mut self.values, columns: &self.columns, offsets: &self.offsets, lengths: &self.lengths }
        }
    }

    impl Store for Laid {
        fn of(columns: &Columns) -> Laid {
            let lengths: Vec<usize> = columns.iter().map(Vec::len).collect();
            let offsets = lengths.iter().scan(0, |at, n| Some(std::mem::replace(at, *at + n))).collect();
            let columns = columns.concat();
            Laid { values: vec![0.0; columns.len()], columns, offsets, lengths }
        }

        fn clear(&mut self) {
            self.values.fill(0.0);
        }

        fn values(&self) -> Vec<f64> {
            self.values.clone()
        }
    }

    /// A device whose load searches.
    pub struct Searching {
        device: Device,
        /// Laid out once, as a simulator can: it evaluates every device of an iteration at the same conditions.
        conditions: ConditionsRecord,
        kind: Load,
    }

    /// The same by resolved cells.
    pub struct Resolved {
        one: Searching,
        cells: Cells,
    }

    impl Model for Searching {
        type Matrix = Laid;

        fn bound(case: &Case, terminals: Terminals, _: &Laid) -> Searching {
            let polarity = if case.pmos { Polarity::Pmos } else { Polarity::Nmos };
            let (mut device, _) = Device::from_model_params(polarity, &case.keys(), &mut []).unwrap();
            device.set_instance_params(&GEOMETRY, &mut []).unwrap();
            device.setup_model(KELVIN).unwrap();
            let [d, g, s, b] = terminals.map(|row| row.map_or(Node::Ground, Node::Row));
            device.setup_instance(d, g, s, b, 0).unwrap();
            let method = if case.transient { Method::Euler(case.step) } else { Method::None };
            let conditions = Conditions { temperature: KELVIN, gmin: GMIN, limiter: true, transient: case.transient, method };
            let kind = if case.transient { Load::Transient(0.0) } else { Load::DirectCurrent };
            Searching { device, conditions: conditions.into(), kind }
        }

        fn eval(&mut self, x: &[f64]) {
            // The answer is not looked at, as the Rust gives none.
            self.device.eval_at(x, &self.conditions).unwrap();
        }

        fn load(&self, rhs: &mut [f64], m: &mut Laid) {
            self.device.load(self.kind, rhs, m.matrix()).unwrap();
        }
    }

    impl Model for Resolved {
        type Matrix = Laid;

        fn bound(case: &Case, terminals: Terminals, m: &Laid) -> Resolved {
            let one = Searching::bound(case, terminals, m);
            let cells = one.device.resolve(&m.columns, &m.offsets, &m.lengths).unwrap();
            Resolved { one, cells }
        }

        fn eval(&mut self, x: &[f64]) {
            self.one.eval(x);
        }

        fn load(&self, rhs: &mut [f64], m: &mut Laid) {
            self.one.device.load_resolved(self.one.kind, &self.cells, rhs, &mut m.values).unwrap();
        }
    }

    /// Devices in a row, which one call loads, of one case.
    pub struct Bridge {
        devices: Vec<Device>,
        cells: Vec<Cells>,
        conditions: ConditionsRecord,
        kind: Load,
        starts: Vec<usize>,
        counts: Vec<usize>,
        matrix: Laid,
        pub rhs: Vec<f64>,
    }

    impl Bridge {
        pub fn new(columns: &Columns, all: &[(&Case, Terminals)], starts: Vec<usize>, counts: Vec<usize>) -> Bridge {
            let System { devices, matrix, rhs } = System::<Resolved>::new(columns, all);
            let Searching { conditions, kind, .. } = devices[0].one;
            let (devices, cells) = devices.into_iter().map(|each| (each.one.device, each.cells)).unzip();
            Bridge { devices, cells, conditions, kind, starts, counts, matrix, rhs }
        }

        pub fn eval(&mut self, x: &[f64]) {
            for device in &mut self.devices {
                device.eval_at(x, &self.conditions).unwrap();
            }
        }

        /// Both slices are filled with what a load must not keep.
        pub fn spoil(&mut self) {
            self.rhs.fill(f64::INFINITY);
            self.matrix.values.fill(f64::INFINITY);
        }

        pub fn load(&mut self) {
            let runs = Runs { starts: &self.starts, counts: &self.counts };
            load_bridge(&self.devices, runs, self.kind, &mut self.rhs, self.matrix.matrix()).unwrap();
        }

        pub fn load_resolved(&mut self) {
            let runs = Runs { starts: &self.starts, counts: &self.counts };
            load_bridge_resolved(&self.devices, runs, self.kind, &self.cells, &mut self.rhs, &mut self.matrix.values).unwrap();
        }

        pub fn values(&self) -> Vec<f64> {
            self.matrix.values()
        }
    }
}
