//! What is measured: cards, geometry, bias points, patterns.

pub const POINTS: usize = 64;
pub const NODES: usize = 4;

/// A card's choices and the analysis it is put to.
#[derive(Clone, Copy)]
pub struct Case {
    pub name: &'static str,
    pub pmos: bool,
    pub capacitances: bool,
    pub transient: bool,
    /// The step in seconds where the analysis is transient.
    pub step: f64,
}

const DIRECT: Case = Case { name: "direct current", pmos: false, capacitances: false, transient: false, step: 1e-9 };
pub const CASES: [Case; 3] = [
    DIRECT,
    Case { name: "transient, no capacitance", transient: true, ..DIRECT },
    Case { name: "transient, all five capacitances", transient: true, capacitances: true, ..DIRECT },
];

pub const GEOMETRY: [(&str, f64); 6] = [("w", 1e-5), ("l", 1e-6), ("as", 1e-10), ("ad", 1e-10), ("ps", 4e-5), ("pd", 4e-5)];
pub const GMIN: f64 = 1e-12;
pub const KELVIN: f64 = 310.0;

const CHANNEL: [(&str, f64); 3] = [("kp", 1e-4), ("lambda", 0.02), ("gamma", 0.4)];
// mj and mjsw are the Rust's defaults; ngspice has another for mjsw, 0.5, with which it takes a root in place of a power
const CAPACITANCES: [(&str, f64); 8] = [
    ("tox", 1e-7),
    ("cgso", 1e-10),
    ("cgdo", 1e-10),
    ("cgbo", 1e-10),
    ("cj", 1e-4),
    ("cjsw", 1e-10),
    ("mj", 0.5),
    ("mjsw", 0.33),
];

impl Case {
    /// The card as keys with values.
    pub fn keys(&self) -> Vec<(&'static str, f64)> {
        let vto = ("vto", if self.pmos { -0.7 } else { 0.7 });
        let more = if self.capacitances { &CAPACITANCES[..] } else { &[] };
        [&[vto], &CHANNEL[..], more].concat()
    }
}

/// Numbers between 0 and 1 by a linear congruential generator: the same in each run.
pub fn uniform(mut seed: u64) -> impl FnMut() -> f64 {
    move || {
        seed = seed.wrapping_mul(6364136223846793005).wrapping_add(1442695040888963407);
        (seed >> 11) as f64 / (1u64 << 53) as f64
    }
}

/// Node voltages D, G, S, B: the same for all.
pub fn points() -> Vec<Vec<f64>> {
    let mut next = uniform(1);
    let mut between = |low: f64, high: f64| low + (high - low) * next();
    (0..POINTS).map(|_| vec![between(0.0, 5.0), between(0.0, 5.0), between(0.0, 0.3), between(-0.5, 0.0)]).collect()
}

/// The columns of a row: all of the device's four, and in a larger matrix the row's own and its neighbours.
pub fn columns(rows: usize) -> Vec<Vec<u32>> {
    (0..rows)
        .map(|i| {
            let near = i.saturating_sub(2)..(i + 3).min(rows);
            let own = if i < NODES { 0..NODES } else { 0..0 };
            let mut all: Vec<u32> = near.chain(own).map(|j| j as u32).collect();
            all.sort_unstable();
            all.dedup();
            all
        })
        .collect()
}
