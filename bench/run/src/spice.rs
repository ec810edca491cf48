//! ngspice as a peer. It runs CMOS inverters of the same card and geometry and says itself what loading the matrix took; the port and
//! the Rust then evaluate and load as many devices in one matrix, at the voltages that ngspice found. Without ngspice a line says so.
use crate::cases::{Case, CASES, GEOMETRY, GMIN, KELVIN};
use crate::devices::{port, rust_c, Model, System, Terminals};
use crate::{agree, best};
use std::fmt::Write as _;
use std::process::Command;
use std::{env, fs, process};

const INVERTERS: usize = 500;
const DEVICES: usize = 2 * INVERTERS;
const STEP: f64 = 1e-10;
const PERIOD: f64 = 20e-9;
// ngspice adds up differences of a clock of whole milliseconds, so a run is long
const PERIODS: f64 = 20.0;
const ROUNDS: usize = 3;

fn assigned(keys: &[(&str, f64)]) -> String {
    keys.iter().fold(String::new(), |text, (key, value)| format!("{text} {key}={value:e}"))
}

/// Inverters side by side at one pulsed input, steps of at most STEP over many periods; the voltages go to `points`.
fn netlist(case: &Case, points: &str) -> String {
    let mut text = format!("inverters\n.options temp={} tnom=27 gmin={GMIN:e}\n", KELVIN - 273.15);
    for (name, kind, pmos) in [("n", "nmos", false), ("p", "pmos", true)] {
        writeln!(text, ".model {name} {kind} level=1{}", assigned(&Case { pmos, ..*case }.keys())).unwrap();
    }
    text += &format!("vdd vdd 0 5\nvin in 0 pulse(0 5 0 5n 5n 5n {PERIOD:e})\n");
    let sizes = assigned(&GEOMETRY);
    for i in 0..INVERTERS {
        writeln!(text, "mn{i} o{i} in 0 0 n{sizes}\nmp{i} o{i} in vdd vdd p{sizes}").unwrap();
    }
    text += &format!(".save v(in) v(o0)\n.control\ntran {STEP:e} {:e} 0 {STEP:e}\nrusage all\n", PERIODS * PERIOD);
    text + &format!("wrdata {points} v(in) v(o0)\nquit\n.endc\n.end\n")
}

/// The number behind `name =` in what ngspice wrote.
fn said(text: &str, name: &str) -> Option<f64> {
    text.lines().find_map(|line| line.strip_prefix(name)?.trim().strip_prefix('=')?.trim().parse().ok())
}

/// Input and output voltages over two periods, from lines of time, input, time, output.
fn voltages(table: &str) -> Option<Vec<[f64; 2]>> {
    let numbers = |line: &str| line.split_whitespace().map(|word| word.parse().ok()).collect::<Option<Vec<f64>>>();
    let mut found = Vec::new();
    for line in table.lines() {
        let row = numbers(line)?;
        if *row.first()? < 2.0 * PERIOD {
            found.push([*row.get(1)?, *row.get(3)?]);
        }
    }
    (!found.is_empty()).then_some(found)
}

/// What a run of ngspice took for a device and an iteration in nanoseconds, and voltages of input and output on its way.
fn run(case: &Case) -> Option<(f64, Vec<[f64; 2]>)> {
    let folder = env::temp_dir().join(format!("mivtolgya-bench-{}", process::id()));
    fs::create_dir_all(&folder).ok()?;
    // ngspice would give a name without an ending one of its own
    let (deck, points) = (folder.join("deck.cir"), folder.join("points.data"));
    fs::write(&deck, netlist(case, points.to_str()?)).ok()?;
    let mut least = f64::INFINITY;
    for _ in 0..ROUNDS {
        let written = Command::new("ngspice").arg("-b").arg(&deck).output().ok()?.stdout;
        let text = String::from_utf8_lossy(&written);
        let (seconds, iterations) = (said(&text, "Transient load time")?, said(&text, "Transient iterations")?);
        least = least.min(seconds * 1e9 / iterations / DEVICES as f64);
    }
    let table = fs::read_to_string(&points).ok()?;
    fs::remove_dir_all(&folder).ok()?;
    Some((least, voltages(&table)?))
}

/// Rows: the supply, the input, then the outputs. Every device has all pairs of its rows.
fn columns() -> Vec<Vec<u32>> {
    let rows = INVERTERS as u32 + 2;
    let outer = (0..2).map(|_| (0..rows).collect());
    outer.chain((2..rows).map(|out| vec![0, 1, out])).collect()
}

/// All n-channel devices, then all p-channel ones, as ngspice goes through them.
fn devices<'a>(n: &'a Case, p: &'a Case) -> Vec<(&'a Case, Terminals)> {
    let lower = (0..INVERTERS).map(|i| (n, [Some(i + 2), Some(1), None, None]));
    let upper = (0..INVERTERS).map(|i| (p, [Some(i + 2), Some(1), Some(0), Some(0)]));
    lower.chain(upper).collect()
}

fn bias(x: &mut [f64], [input, output]: [f64; 2]) {
    x[0] = 5.0;
    x[1] = input;
    x[2..].fill(output);
}

/// Nanoseconds for a device and an iteration, two iterations at each point: cleared, evaluated and loaded device by device.
fn timed<M: Model>(all: &[(&Case, Terminals)], points: &[[f64; 2]]) -> f64 {
    let mut system = System::<M>::new(&columns(), all);
    let mut x = vec![0.0; INVERTERS + 2];
    best(10, 2 * points.len() * DEVICES, || {
        for point in points {
            bias(&mut x, *point);
            system.iterate(&x);
            system.iterate(&x);
        }
    })
}

/// Every tenth point, in full.
fn some_points(points: &[[f64; 2]]) -> Vec<Vec<f64>> {
    let full = |point: &[f64; 2]| {
        let mut x = vec![0.0; INVERTERS + 2];
        bias(&mut x, *point);
        x
    };
    points.iter().step_by(10).map(full).collect()
}

pub fn table() {
    let Ok(version) = Command::new("ngspice").arg("--version").output() else {
        println!("\nngspice is not installed: the comparison with it was left out.");
        return;
    };
    let text = String::from_utf8_lossy(&version.stdout).into_owned();
    let name = text.split_whitespace().find(|word| word.starts_with("ngspice-")).unwrap_or("ngspice").to_string();
    println!("\n| {INVERTERS} inverters, transient, a device and an iteration | {name}, load | port, evaluation and resolved load | Rust, C's functions | port to ngspice | port to Rust |");
    println!("|---|---|---|---|---|---|");
    for case in CASES.iter().filter(|case| case.transient) {
        let case = Case { step: STEP, ..*case };
        let Some((spice, points)) = run(&case) else {
            println!("\nngspice did not say what its load took: {} was left out.", case.name);
            continue;
        };
        let pmos = Case { pmos: true, ..case };
        let all = devices(&case, &pmos);
        agree::<port::Resolved>(&columns(), &all, &some_points(&points));
        let (p, c) = (timed::<port::Resolved>(&all, &points), timed::<rust_c::Resolved>(&all, &points));
        println!("| {} | {spice:.0} ns | {p:.0} ns | {c:.0} ns | {:.1} | {:.1} |", case.name, p / spice, p / c);
    }
}
