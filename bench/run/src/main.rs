//! The port through its library against the Rust original, with the C library's functions and with the port's, and against ngspice
//! where it is installed, on the same inputs in one run. Prints nanoseconds, best of many passes, and ratios.
mod bridge;
mod cases;
mod devices;
mod functions;
mod spice;

use cases::{columns, points, Case, CASES, NODES, POINTS};
use devices::{port, rust_c, rust_port, Columns, Model, System, Terminals};
use std::env;
use std::hint::black_box;
use std::time::Instant;

const TERMINALS: Terminals = [Some(0), Some(1), Some(2), Some(3)];

/// Best time of one call in nanoseconds, over passes of `calls` calls.
pub fn best(passes: usize, calls: usize, mut pass: impl FnMut()) -> f64 {
    let mut least = f64::INFINITY;
    for _ in 0..passes {
        let start = Instant::now();
        pass();
        least = least.min(start.elapsed().as_nanos() as f64 / calls as f64);
    }
    least
}

/// Nanoseconds.
#[derive(Clone, Copy)]
struct Times {
    both: f64,
    eval: f64,
    load: f64,
}

impl Times {
    fn better(self, other: Times) -> Times {
        Times { both: self.both.min(other.both), eval: self.eval.min(other.eval), load: self.load.min(other.load) }
    }
}

fn alone<M: Model>(case: &Case, rows: usize) -> System<M> {
    System::new(&columns(rows), &[(case, TERMINALS)])
}

fn timed_load<M: Model>(system: &mut System<M>, passes: usize, calls: usize) -> f64 {
    best(passes, calls, || (0..calls).for_each(|_| system.load()))
}

fn timed<M: Model>(case: &Case, xs: &[Vec<f64>]) -> Times {
    let (passes, reps) = (40, 20);
    let calls = reps * xs.len();
    let mut system = alone::<M>(case, NODES);
    let both = best(passes, calls, || {
        for x in (0..reps).flat_map(|_| xs) {
            system.eval(black_box(x));
            system.load();
        }
    });
    let eval = best(passes, calls, || (0..reps).flat_map(|_| xs).for_each(|x| system.eval(black_box(x))));
    Times { both, eval, load: timed_load(&mut system, passes, calls) }
}

pub fn same_bits(a: &[f64], b: &[f64]) -> bool {
    a.len() == b.len() && a.iter().zip(b).all(|(x, y)| x.to_bits() == y.to_bits() || (x.is_nan() && y.is_nan()))
}

/// Both slices of one side are those of the Rust with the port's functions, bit for bit, at each point.
pub fn agree<M: Model>(columns: &Columns, devices: &[(&Case, Terminals)], xs: &[Vec<f64>]) {
    let (mut a, mut b) = (System::<M>::new(columns, devices), System::<rust_port::Resolved>::new(columns, devices));
    for x in xs {
        a.eval(x);
        b.eval(x);
        a.load();
        b.load();
        assert!(same_bits(&a.rhs, &b.rhs) && same_bits(&a.values(), &b.values()), "{}: other bits", devices[0].0.name);
    }
}

fn loads() {
    let xs = points();
    println!("| | port | Rust, C's functions | Rust, the port's functions | port to Rust | port to Rust with the port's functions |");
    println!("|---|---|---|---|---|---|");
    for case in &CASES {
        agree::<port::Searching>(&columns(NODES), &[(case, TERMINALS)], &xs);
        agree::<port::Resolved>(&columns(NODES), &[(case, TERMINALS)], &xs);
        let round = || {
            let port = [timed::<port::Searching>(case, &xs), timed::<port::Resolved>(case, &xs)];
            [port[0], port[1], timed::<rust_c::Resolved>(case, &xs), timed::<rust_port::Resolved>(case, &xs)]
        };
        // The better of two rounds, so that no one has the quieter half of the run.
        let (one, other) = (round(), round());
        let [p, q, c, r] = [0, 1, 2, 3].map(|i| one[i].better(other[i]));
        for (what, p, c, r) in [
            ("evaluation and load", p.both, c.both, r.both),
            ("evaluation and resolved load", q.both, c.both, r.both),
            ("evaluation", p.eval.min(q.eval), c.eval, r.eval),
            ("load", p.load, c.load, r.load),
            ("resolved load", q.load, c.load, r.load),
        ] {
            println!("| {}: {what} | {p:.0} ns | {c:.0} ns | {r:.0} ns | {:.2} | {:.2} |", case.name, p / c, p / r);
        }
    }
}

fn growth_of<M: Model>(rows: usize) -> f64 {
    let mut system = alone::<M>(&CASES[2], rows);
    let mut x = vec![1.0, 3.0, 0.0, 0.0];
    x.resize(rows, 0.0);
    system.eval(&x);
    timed_load(&mut system, 20, 5 * POINTS)
}

fn growth() {
    println!("\n| rows | entries | port's load, ns | port's resolved load, ns | Rust's load, cells resolved, ns | resolved load to Rust |");
    println!("|---|---|---|---|---|---|");
    for rows in [4, 8, 16, 64, 256, 1024, 4096] {
        let entries: usize = columns(rows).iter().map(Vec::len).sum();
        let (p, q, c) = (growth_of::<port::Searching>(rows), growth_of::<port::Resolved>(rows), growth_of::<rust_c::Resolved>(rows));
        println!("| {rows} | {entries} | {p:.0} | {q:.0} | {c:.0} | {:.2} |", q / c);
    }
}

const TABLES: [(&str, fn()); 5] =
    [("loads", loads), ("growth", growth), ("bridge", bridge::table), ("ngspice", spice::table), ("functions", functions::table)];

/// All tables, or the one that is named.
fn main() {
    let word = env::args().nth(1);
    assert!(word.iter().all(|word| TABLES.iter().any(|(name, _)| name == word)), "no such table");
    TABLES.iter().filter(|(name, _)| word.iter().all(|word| word == name)).for_each(|(_, table)| table());
}
