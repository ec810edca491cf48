//! `call FUNCTION ARGS`: one function of the Rust alone.

use crate::arithmetic::PortFunctions;
use crate::format::{method, number, Written};
use crate::mosfet1::Mosfet1;
use crate::reactive::{charge_current, ChargeHistory};
use crate::runner::at_temperature;
use crate::temperature as t;

fn of_floats(name: &[u8], x: &[f64]) -> Option<Vec<f64>> {
    let value = match (name, x) {
        (b"exp", [x]) => x.port_exp(),
        (b"ln", [x]) => x.port_ln(),
        (b"ln_1p", [x]) => x.port_ln_1p(),
        (b"sqrt", [x]) => x.sqrt(),
        (b"pow", [x, y]) => x.port_powf(*y),
        (b"vt", [kelvin]) => at_temperature(*kelvin).vt(),
        (b"bandgap_ev", [kelvin]) => t::bandgap_ev(*kelvin),
        (b"pbfact", [kelvin]) => t::pbfact(*kelvin),
        (b"mos_junction_is_factor", [kelvin, tnom]) => t::mos_junction_is_factor(*kelvin, *tnom),
        (b"mobility_factor", [kelvin, tnom]) => t::mobility_factor(*kelvin, *tnom),
        (b"scaled_phi", [phi, kelvin, tnom]) => t::scaled_phi(*phi, *kelvin, *tnom),
        (b"junction_cap_factor", [vj, m, kelvin, tnom]) => t::junction_cap_factor(*vj, *m, *kelvin, *tnom),
        (b"scaled_vto", [vto, gamma, phi, phi_t, kelvin, tnom, polarity]) => {
            t::scaled_vto(*vto, *gamma, *phi, *phi_t, *kelvin, *tnom, *polarity < 0.0)
        }
        (b"bulk_junction", [isat, v, vt, gmin]) => return Some(Mosfet1::junction(*isat, *v, *vt, *gmin).to_vec()),
        _ => return None,
    };
    Some(vec![value])
}

fn of_charges(words: &[&[u8]]) -> Option<Vec<f64>> {
    let [word, q_new, q_prev, before, i_prev] = words else { return None };
    let d = method(word)??;
    let before = if *before == b"none" { None } else { Some(number(before)?) };
    let (current, scale) =
        charge_current(d.mode, d.h, d.gear2_h_prev, number(q_new)?, number(q_prev)?, before, number(i_prev)?);
    Some(vec![current, scale])
}

fn scale(words: &[&[u8]]) -> Option<Vec<f64>> {
    let [word, alpha] = words else { return None };
    Some(vec![ChargeHistory::scale(method(word)?, number(alpha)?)])
}

/// The answer, or None for a call that is not understood.
pub fn call(name: &[u8], words: &[&[u8]]) -> Option<String> {
    let values = match name {
        b"charge_current" => of_charges(words)?,
        b"scale" => scale(words)?,
        _ => of_floats(name, &words.iter().map(|w| number(w)).collect::<Option<Vec<_>>>()?)?,
    };
    Some(values.iter().fold("call".to_string(), |text, v| format!("{text} {}", v.written())))
}
