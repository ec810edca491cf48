//! A half bridge: two power transistors in parallel as its high side, two as its low side, and a clamp, a PMOS.
use super::matrix::{Layout, Slices};
use mivtolgya::{Conditions, Device, Load, Method, Node, Polarity, Runs};

pub const LOADS: [Load; 2] = [Load::DirectCurrent, Load::Transient(0.0)];

/// The blocks' rows in the shared right-hand side, of which rows 4 and 13 belong to none.
pub const RUNS: Runs = Runs { starts: &[8, 0, 5], counts: &[5, 4, 3] };
pub const SIDE: usize = 14;

const POWER: [(&str, f64); 8] =
    [("vto", 3.5), ("kp", 20.0), ("lambda", 0.01), ("rd", 0.03), ("cgso", 1e-5), ("cgdo", 1e-6), ("cgbo", 1e-7), ("cj", 1e-2)];
const CLAMP: [(&str, f64); 4] = [("vto", -2.0), ("kp", 5.0), ("cgso", 2e-6), ("cgdo", 2e-7)];
const SIZES: [(&str, f64); 4] = [("w", 1e-4), ("l", 1e-4), ("ad", 1e-8), ("as", 1e-8)];

/// A transistor with drain, gate, and source with the bulk, its inner drain in the row `first` if it has one.
pub fn transistor(polarity: Polarity, keys: &[(&str, f64)], [drain, gate, source]: [Node; 3], first: usize) -> Device {
    let (mut device, _) = Device::from_model_params(polarity, keys, &mut []).unwrap();
    device.set_instance_params(&SIZES, &mut []).unwrap();
    device.setup_model(300.15).unwrap();
    device.setup_instance(drain, gate, source, source, first).unwrap();
    device
}

pub fn power(nodes: [usize; 2], source: Node, first: usize) -> Device {
    transistor(Polarity::Nmos, &POWER, [Node::Row(nodes[0]), Node::Row(nodes[1]), source], first)
}

fn clamp(nodes: [usize; 3]) -> Device {
    transistor(Polarity::Pmos, &CLAMP, nodes.map(Node::Row), 0)
}

/// Each evaluated, committed and evaluated again.
pub fn run(mut devices: Vec<Device>, volts: &[f64]) -> Vec<Device> {
    let method = Method::Trapezoid(1e-8);
    let at = Conditions { temperature: 320.0, gmin: 1e-12, limiter: false, transient: true, method };
    let later: Vec<f64> = volts.iter().map(|v| 0.875 * v).collect();
    for device in &mut devices {
        device.eval(volts, at).unwrap();
        device.commit_timestep(volts).unwrap();
        device.eval(&later, at).unwrap();
    }
    devices
}

/// The three blocks, each with its nodes counted from the start of its run.
pub fn blocks() -> [Vec<Device>; 3] {
    // drain, gate, source, two inner drains
    let high = vec![power([0, 1], Node::Row(2), 3), power([0, 1], Node::Row(2), 4)];
    // drain, gate, two inner drains
    let low = vec![power([0, 1], Node::Ground, 2), power([0, 1], Node::Ground, 3)];
    // drain, gate, source
    let clamp = vec![clamp([0, 1, 2])];
    [run(high, &[48.0, 20.0, 12.0, 47.3, 47.1]), run(low, &[12.0, 6.0, 11.3, 11.6]), run(clamp, &[12.0, 44.0, 48.0])]
}

/// Rows of the bridge: supply, output, gates of high side, low side and clamp, four inner drains.
pub const ROWS: u32 = 9;
pub const VOLTS: [f64; ROWS as usize] = [48.0, 12.0, 20.0, 6.0, 44.0, 47.3, 47.1, 11.3, 11.6];

pub fn bound_bridge() -> Vec<Device> {
    let output = Node::Row(1);
    let high = [power([0, 2], output, 5), power([0, 2], output, 6)];
    let low = [power([1, 3], Node::Ground, 7), power([1, 3], Node::Ground, 8)];
    [&high[..], &low, &[clamp([1, 4, 0])]].concat()
}

pub fn bridge() -> Vec<Device> {
    run(bound_bridge(), &VOLTS)
}

/// Both slices after the devices were loaded one after another, each by a load of its own.
pub fn one_after_another(devices: &[Device], load: Load, layout: &Layout, mut slices: Slices) -> Slices {
    for device in devices {
        device.load(load, &mut slices.0, layout.matrix(&mut slices.1)).unwrap();
    }
    slices
}

/// Contents of both slices that a load of the whole bridge must not keep: NaN, infinities, negative zeros.
pub fn rubbish(layout: &Layout) -> Slices {
    let any = |i: usize| [f64::NAN, f64::INFINITY, -0.0, f64::NEG_INFINITY, 1e300][i % 5];
    ((0..SIDE).map(any).collect(), (0..layout.columns.len()).map(any).collect())
}

/// What a load of the whole bridge leaves: both slices set to 0, then one device after another.
pub fn from_zeros(devices: &[Device], load: Load, layout: &Layout) -> Slices {
    one_after_another(devices, load, layout, (vec![0.0; SIDE], vec![0.0; layout.columns.len()]))
}
