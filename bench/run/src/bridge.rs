//! A bridge's load, which sets both slices to 0 and loads all devices by one call, against as many loads of the published Rust after
//! zeroing. The bridge is half bridges at one supply.
use crate::cases::{uniform, Case, CASES, POINTS};
use crate::devices::{port, rust_c, rust_port, System, Terminals};
use crate::{best, same_bits};
use std::hint::black_box;

const COUNTS: [usize; 3] = [3, 16, 64];
// each goes through all sides of all rows, so that none has the quieter part of the run
const ROUNDS: usize = 20;

/// Row 0 is the supply; a half bridge has three more: gate of the high side, phase, gate of the low side. A last high side alone has two.
fn terminals(device: usize) -> Terminals {
    let [high, phase, low] = [1, 2, 3].map(|row| Some(device / 2 * 3 + row));
    if device % 2 == 0 {
        [Some(0), high, phase, phase]
    } else {
        [phase, low, None, None]
    }
}

/// All pairs of each device's rows.
fn columns(count: usize) -> Vec<Vec<u32>> {
    let mut all = vec![Vec::new(); 1 + count / 2 * 3 + count % 2 * 2];
    for rows in (0..count).map(|i| terminals(i).into_iter().flatten()) {
        rows.clone().for_each(|row| all[row].extend(rows.clone().map(|column| column as u32)));
    }
    for row in &mut all {
        row.sort_unstable();
        row.dedup();
    }
    all
}

/// One side's best nanoseconds for a device of a whole load.
fn timed<S>(count: usize, side: &mut S, load: fn(&mut S)) -> f64 {
    let calls = 20 * POINTS / count;
    best(40, calls * count, || (0..calls).for_each(|_| load(black_box(&mut *side))))
}

/// Port on the pattern, port by cells, Rust with C's functions, Rust with the port's, after both of the port's were held to the last.
fn times(case: &Case, count: usize) -> [f64; 4] {
    let (columns, all) = (columns(count), Vec::from_iter((0..count).map(|i| (case, terminals(i)))));
    // each half bridge owns its rows, and the supply belongs to none
    let starts = Vec::from_iter((1..columns.len()).step_by(3));
    let counts = Vec::from_iter(starts.iter().map(|start| (columns.len() - start).min(3)));
    let mut port = port::Bridge::new(&columns, &all, starts, counts);
    let (mut c, mut r) = (System::<rust_c::Resolved>::new(&columns, &all), System::<rust_port::Resolved>::new(&columns, &all));
    let mut next = uniform(3);
    for _ in 0..POINTS {
        let x = Vec::from_iter((0..columns.len()).map(|row| if row == 0 { 5.0 } else { 5.0 * next() }));
        port.eval(&x);
        c.eval(&x);
        r.eval(&x);
        r.reload();
        for load in [port::Bridge::load, port::Bridge::load_resolved] {
            port.spoil();
            load(&mut port);
            assert!(same_bits(&port.rhs, &r.rhs) && same_bits(&port.values(), &r.values()), "{}: other bits", case.name);
        }
    }
    let ours = [timed(count, &mut port, port::Bridge::load), timed(count, &mut port, port::Bridge::load_resolved)];
    [ours[0], ours[1], timed(count, &mut c, System::reload), timed(count, &mut r, System::reload)]
}

pub fn table() {
    let mut rows = Vec::from_iter(CASES.iter().flat_map(|case| COUNTS.map(|count| (case, count, [f64::INFINITY; 4]))));
    for _ in 0..ROUNDS {
        for (case, count, least) in &mut rows {
            let now = times(case, *count);
            *least = [0, 1, 2, 3].map(|i| now[i].min(least[i]));
        }
    }
    println!("\n| a bridge's load, for a device | devices | port, on the pattern | port, by cells | Rust, C's functions | Rust, the port's functions | by cells to Rust | by cells to Rust with the port's functions |");
    println!("|---|---|---|---|---|---|---|---|");
    for (case, count, [p, q, c, r]) in rows {
        println!("| {} | {count} | {p:.0} ns | {q:.0} ns | {c:.0} ns | {r:.0} ns | {:.2} | {:.2} |", case.name, q / c, q / r);
    }
}
