//! What threads share: nothing is written outside what a call is lent, so one device is loaded from many threads at once, and
//! devices of their own are evaluated side by side.
mod common;
use common::*;
use mivtolgya::*;
use std::thread;

const THREADS: usize = 4;

#[test]
fn one_device_is_loaded_from_many_threads() {
    let device = evaluated(Method::Euler(1e-9));
    let cells = device.resolve(&[0, 1, 0, 1], &[0, 2], &[2, 2]).unwrap();
    let one_load = || {
        let (mut rhs, mut values) = ([0.0; 2], [0.0; 4]);
        load(&device, Load::Transient(0.0), &mut rhs, &mut values).unwrap();
        device.load_resolved(Load::Transient(0.0), &cells, &mut rhs, &mut values).unwrap();
        (rhs.map(f64::to_bits), values.map(f64::to_bits))
    };
    let expected = one_load();
    thread::scope(|scope| {
        for _ in 0..THREADS {
            scope.spawn(|| (0..1000).for_each(|_| assert_eq!(one_load(), expected)));
        }
    });
}

/// A short run of steps, every number of the device at its end.
fn steps(start: &Device, seed: u64) -> Vec<u64> {
    let mut device = start.clone();
    for i in 0..500 {
        let v = ((seed * 7 + i * 13) % 40) as f64 / 10.0;
        device.eval(&[v, 4.0 - v], conditions(Method::Trapezoid(1e-9))).unwrap();
        device.commit_timestep(&[v, 4.0 - v]).unwrap();
    }
    bits(&device)
}

#[test]
fn clones_are_devices_of_their_own() {
    let device = &bound();
    let seeds = 0..THREADS as u64;
    let expected: Vec<_> = seeds.clone().map(|seed| steps(device, seed)).collect();
    let at_once: Vec<_> = thread::scope(|scope| {
        let all: Vec<_> = seeds.map(|seed| scope.spawn(move || steps(device, seed))).collect();
        all.into_iter().map(|one| one.join().unwrap()).collect()
    });
    assert_eq!(at_once, expected);
    assert_eq!(bits(device), bits(&bound()));
}
