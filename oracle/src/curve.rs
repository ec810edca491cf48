//! The program `curve` of document 01, on the Rust.

use std::io::{BufRead, Result, Write};

use crate::device::{Device, EvalFlags, SimContext};
use crate::format::{number, Written};
use crate::mosfet1::Mosfet1;
use crate::runner::at_temperature;

/// vgs and vds of a line of exactly 33 bytes, none under row 9.
fn voltages(line: &[u8]) -> Option<[f64; 2]> {
    if line.len() != 33 || line[16] != b' ' {
        return None;
    }
    let both = [number(&line[..16])?, number(&line[17..])?];
    both.iter().all(|v| v.abs() <= 1000.0).then_some(both)
}

pub fn run(input: impl BufRead, out: &mut impl Write) -> Result<()> {
    let (mut device, _) = Mosfet1::from_model_params(false, &[]);
    device.set_instance_params(&[]);
    device.setup_model(&at_temperature(300.15));
    device.set_reference_channel();
    device.setup_instance(&[Some(0), Some(1), None, None], &SimContext::default());
    writeln!(out, "ids gm gds gmbs jeq")?;
    for line in input.split(b'\n') {
        let Some([vgs, vds]) = voltages(&line?) else { return writeln!(out, "bad") };
        let context = SimContext { gmin: 0.0, jlim_enabled: false, ..at_temperature(300.15) };
        device.eval(&[vds, vgs], EvalFlags::dc(), &context);
        writeln!(out, "{}", device.curve_point().map(|v| v.written()).join(" "))?;
    }
    Ok(())
}
