//! The calls in their order, with their answers.
mod common;
use common::*;
use mivtolgya::*;

#[test]
fn a_card_counts_and_places_unknown_keys() {
    let mut unknown = [9; 3];
    let (device, count) =
        Device::from_model_params(Polarity::Pmos, &[("foo", 1.0), ("VTO", -0.5), ("", 2.0)], &mut unknown).unwrap();
    assert_eq!((count, unknown), (2, [0, 2, 9]));
    assert_eq!((device.stage(), device.record().card.vto, device.record().card.polarity), (Stage::Card, -0.5, -1.0));
}

#[test]
fn stages_rise() {
    let mut device = sized();
    assert_eq!(device.stage(), Stage::Geometry);
    device.setup_model(300.15).unwrap();
    assert_eq!(device.stage(), Stage::Scaled);
    assert_eq!(bound().stage(), Stage::Bound);
    assert_eq!(evaluated(Method::None).stage(), Stage::Evaluated);
    assert!(Stage::Card < Stage::Evaluated);
}

#[test]
fn evaluation_load_and_commit() {
    let mut device = bound();
    let answer = device.eval(&X, conditions(Method::Euler(0.5))).unwrap();
    assert_eq!((answer.vgs, answer.vds, answer.vth), (3.0, 1.0, 1.0));
    assert_eq!((answer.ids, answer.gm, answer.gds), (3.0, 2.0, 2.0));
    let (mut rhs, mut values) = ([0.0; 2], [0.0; 4]);
    load(&device, Load::DirectCurrent, &mut rhs, &mut values).unwrap();
    assert_eq!((values[0], values[1]), (2.0, 2.0));
    // 5 A less the drain junction's reverse current
    assert_eq!(rhs[0], 5.0 - 1e-14);
    device.commit_timestep(&X).unwrap();
    assert_eq!(device.record().histories.gs_hist.q_prev, device.record().charges.q_gs_eval);
    assert!(device.noise_sources(300.15, 1e3).unwrap().unwrap().density > 0.0);
    let reactances = device.small_signal_reactances().unwrap();
    assert_eq!(reactances[0].unwrap().pos, Node::Row(1));
    assert!(reactances[1].is_none());
}

/// A call on an evaluated device: its answer and what it leaves, by their bits.
fn outcome(call: impl FnOnce(&mut Device) -> Result<AnswerRecord, Refusal>) -> Vec<u64> {
    let mut device = evaluated(Method::None);
    let a = call(&mut device).unwrap();
    let mut all = bits(&device);
    all.extend([a.vgs, a.vds, a.vth, a.ids, a.gm, a.gds, a.gmbs].map(f64::to_bits));
    all
}

#[test]
fn laid_out_conditions_evaluate_as_conditions_do() {
    let x = [-0.5, 5.5]; // a step that the limiter shortens
    let mut seen = std::collections::BTreeSet::new();
    for (method, tag, h, h_prev) in [
        (Method::None, 0, 0.0, 0.0),
        (Method::Euler(1e-9), 1, 1e-9, 0.0),
        (Method::Trapezoid(1e-9), 2, 1e-9, 0.0),
        (Method::Gear(1e-9, 2e-9), 3, 1e-9, 2e-9),
    ] {
        for (limiter, transient) in [(false, false), (false, true), (true, false), (true, true)] {
            let conditions = Conditions { temperature: 310.0, gmin: 1e-12, limiter, transient, method };
            let expected = outcome(|d| d.eval(&x, conditions));
            assert_eq!(outcome(|d| d.eval_at(&x, &conditions.into())), expected);
            // the same, each number written by hand
            let (limiter, transient) = (u64::from(limiter), u64::from(transient));
            let method = MethodRecord { tag, h, h_prev };
            let record = ConditionsRecord { temperature: 310.0, gmin: 1e-12, limiter, transient, method };
            assert_eq!(outcome(|d| d.eval_at(&x, &record)), expected);
            assert!(seen.insert(expected), "each condition is seen in what it leaves");
        }
    }
}

#[test]
fn a_pmos_answers_flipped_voltages_and_the_current_as_it_flows() {
    let (mut device, _) = Device::from_model_params(Polarity::Pmos, &[("vto", -1.0), ("kp", 2.0)], &mut []).unwrap();
    device.set_instance_params(&[], &mut []).unwrap();
    device.setup_model(300.15).unwrap();
    device.setup_instance(Node::Row(0), Node::Row(1), Node::Ground, Node::Ground, 2).unwrap();
    let answer = device.eval(&[-1.0, -3.0], conditions(Method::None)).unwrap();
    assert_eq!((answer.vgs, answer.vds, answer.vth), (3.0, 1.0, 1.0));
    assert_eq!((answer.ids, answer.gm, answer.gds), (-3.0, 2.0, 2.0));
}

#[test]
fn series_resistances_take_extra_nodes() {
    let mut device = card(&[("rd", 10.0), ("rsh", 2.0)]).unwrap();
    device.set_instance_params(&[("nrs", 3.0)], &mut []).unwrap();
    device.setup_model(300.15).unwrap();
    assert_eq!(device.num_extra_nodes(), 2);
    device.setup_instance(Node::Row(0), Node::Row(1), Node::Ground, Node::Ground, 2).unwrap();
    let terminals = device.record().terminals;
    assert_eq!((terminals.drain.index, terminals.source.index), (2, 3));
    assert_eq!((terminals.drain_ext.index, terminals.source_ext.tag), (0, NODE_GROUND));
}

#[test]
fn a_refusal_is_an_error_with_words() {
    for refusal in Refusal::ALL {
        assert_eq!(Refusal::from_number(refusal.number()), Some(*refusal));
        let error: Box<dyn std::error::Error> = Box::new(*refusal);
        assert!(error.to_string().starts_with(&format!("refusal {}: ", refusal.number())));
    }
    assert_eq!(Refusal::from_number(0), None);
    assert_eq!(Refusal::from_number(15), None);
}
