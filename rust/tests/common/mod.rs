//! The device of the tests: an NMOS with its source and bulk at ground, drain in row 0, gate in row 1.
#![allow(dead_code)]
pub mod half_bridge;
pub mod matrix;

use mivtolgya::{Conditions, Device, Load, Matrix, Method, Node, Polarity, Refusal};

pub const CARD: [(&str, f64); 5] = [("vto", 1.0), ("kp", 2.0), ("cgso", 1e-9), ("CJ", 2e-4), ("shiny", 0.0)];
pub const SIZES: [(&str, f64); 3] = [("w", 1e-4), ("l", 1e-4), ("as", 1e-8)];
pub const X: [f64; 2] = [1.0, 3.0];

pub fn card(keys: &[(&str, f64)]) -> Result<Device, Refusal> {
    Device::from_model_params(Polarity::Nmos, keys, &mut [0; 1]).map(|(device, _)| device)
}

pub fn sized() -> Device {
    let mut device = card(&CARD).unwrap();
    assert_eq!(device.set_instance_params(&SIZES, &mut []), Ok(0));
    device
}

pub fn bound() -> Device {
    let mut device = sized();
    device.setup_model(300.15).unwrap();
    assert_eq!(device.num_extra_nodes(), 0);
    device.setup_instance(Node::Row(0), Node::Row(1), Node::Ground, Node::Ground, 2).unwrap();
    device
}

pub fn conditions(method: Method) -> Conditions {
    Conditions { temperature: 300.15, gmin: 0.0, limiter: false, transient: true, method }
}

pub fn evaluated(method: Method) -> Device {
    let mut device = bound();
    device.eval(&X, conditions(method)).unwrap();
    device
}

/// Loads into a matrix of two full rows.
pub fn load(device: &Device, load: Load, rhs: &mut [f64; 2], values: &mut [f64; 4]) -> Result<(), Refusal> {
    device.load(load, rhs, Matrix { values, columns: &[0, 1, 0, 1], offsets: &[0, 2], lengths: &[2, 2] })
}

/// A call that must be refused under this name and change nothing of the device.
pub fn refused<T: std::fmt::Debug>(expected: Refusal, device: &mut Device, call: impl FnOnce(&mut Device) -> Result<T, Refusal>) {
    let before = bits(device);
    assert_eq!(call(device).err(), Some(expected));
    assert_eq!(bits(device), before);
}

/// Every number of a device by its bits.
pub fn bits(device: &Device) -> Vec<u64> {
    let record = device.record();
    let count = std::mem::size_of_val(record) / 8;
    // SAFETY: a record is numbers of eight bytes each, without padding.
    unsafe { std::slice::from_raw_parts((record as *const mivtolgya::DeviceRecord).cast::<u64>(), count) }.to_vec()
}
