//! Bad inputs of every row: the name of the refusal, and that the device and the lent slices hold what they held.
mod common;
use common::*;
use mivtolgya::*;

fn laid_out(offsets: &[usize], lengths: &[usize], values: &[f64]) -> Option<Refusal> {
    let keys = Keys { bytes: b"vtokp", offsets, lengths, values };
    let mut unknown = [7; 2];
    let card = Device::from_laid_out_params(Polarity::Nmos, keys, &mut unknown).err();
    refused(card.unwrap(), &mut sized(), |d| d.set_laid_out_params(keys, &mut unknown));
    assert_eq!(unknown, [7; 2]);
    card
}

#[test]
fn row_1_key_pairs() {
    for (offsets, lengths, values) in [
        (&[4][..], &[2][..], &[1.0][..]),
        (&[0, 2], &[3, 2], &[1.0, 1.0]),
        (&[6], &[0], &[1.0]),
        (&[usize::MAX], &[2], &[1.0]),
        (&[0], &[3], &[]),
        (&[0], &[3, 2], &[1.0]),
        (&[0, 3], &[3], &[1.0, 1.0]),
    ] {
        assert_eq!(laid_out(offsets, lengths, values), Some(Refusal::KeyPairs));
    }
}

#[test]
fn row_2_key_bytes() {
    assert_eq!(card(&[("vtö", 1.0)]).err(), Some(Refusal::KeyByte));
    refused(Refusal::KeyByte, &mut sized(), |d| d.set_instance_params(&[("µ", 1.0)], &mut [0; 4]));
}

#[test]
fn row_3_unknown_keys() {
    let mut list = [7; 1];
    let keys = [("foo", 1.0), ("bar", 1.0)];
    assert_eq!(Device::from_model_params(Polarity::Nmos, &keys, &mut list).err(), Some(Refusal::UnknownKeys));
    refused(Refusal::UnknownKeys, &mut sized(), |d| d.set_instance_params(&[("w", 1e-6), ("vto", 1.0)], &mut []));
    assert_eq!(list, [7; 1]);
}

#[test]
fn row_4_key_values() {
    for (key, value) in [("fc", 0.96), ("kp", -1e-300), ("vto", f64::NAN), ("rd", 1e-7), ("tox", 0.0), ("is", f64::INFINITY)] {
        assert_eq!(card(&[(key, value)]).err(), Some(Refusal::KeyValue), "{key}");
        // also where a later key overrides it
        assert_eq!(card(&[(key, value), (key, 0.5)]).err(), Some(Refusal::KeyValue), "{key}");
    }
    refused(Refusal::KeyValue, &mut sized(), |d| d.set_instance_params(&[("l", 0.0)], &mut []));
}

#[test]
fn row_5_oxide() {
    let mut device = card(&[("kf", 1e-20)]).unwrap();
    refused(Refusal::Oxide, &mut device, |d| d.set_instance_params(&[], &mut []));
}

#[test]
fn row_6_temperatures_and_gmin() {
    for tnom in [-73.15, 226.86, f64::NAN] {
        assert_eq!(card(&[("tnom", tnom)]).err(), Some(Refusal::Temperature));
    }
    for kelvin in [199.0, 500.1, f64::NAN, f64::NEG_INFINITY] {
        refused(Refusal::Temperature, &mut sized(), |d| d.setup_model(kelvin));
        let c = Conditions { temperature: kelvin, ..conditions(Method::None) };
        refused(Refusal::Temperature, &mut bound(), |d| d.eval(&X, c));
        refused(Refusal::Temperature, &mut evaluated(Method::None), |d| d.noise_sources(kelvin, 1.0));
    }
    for gmin in [-1e-12, 1.1, f64::NAN] {
        refused(Refusal::Temperature, &mut bound(), |d| d.eval(&X, Conditions { gmin, ..conditions(Method::None) }));
    }
}

#[test]
fn row_7_potentials() {
    let mut device = card(&[("phi", 0.1), ("tnom", -73.0)]).unwrap();
    device.set_instance_params(&[], &mut []).unwrap();
    refused(Refusal::Potential, &mut device, |d| d.setup_model(500.0));
}

#[test]
fn row_8_nodes() {
    let mut scaled = sized();
    scaled.setup_model(300.15).unwrap();
    let far = Node::Row(1 << 32);
    refused(Refusal::Node, &mut scaled, |d| d.setup_instance(far, Node::Ground, Node::Ground, Node::Ground, 0));
    refused(Refusal::Node, &mut bound(), |d| d.eval(&[1.0], conditions(Method::None)));
    let mut device = evaluated(Method::None);
    refused(Refusal::Node, &mut device, |d| d.commit_timestep(&[]));
    let (mut rhs, mut values) = ([0.5; 1], [0.5; 4]);
    let matrix = Matrix { values: &mut values, columns: &[0, 1, 0, 1], offsets: &[0, 2], lengths: &[2, 2] };
    refused(Refusal::Node, &mut device, |d| d.load(Load::DirectCurrent, &mut rhs, matrix));
    assert_eq!((rhs, values), ([0.5; 1], [0.5; 4]));
}

#[test]
fn row_9_voltages() {
    for v in [1000.1, -1000.1, f64::NAN, f64::INFINITY] {
        refused(Refusal::Voltage, &mut bound(), |d| d.eval(&[v, 0.0], conditions(Method::None)));
        refused(Refusal::Voltage, &mut evaluated(Method::None), |d| d.commit_timestep(&[0.0, v]));
    }
}

#[test]
fn row_10_stages() {
    let mut fresh = card(&[]).unwrap();
    let ground = [Node::Ground; 4];
    let bind = |d: &mut Device| d.setup_instance(ground[0], ground[1], ground[2], ground[3], 0);
    refused(Refusal::Stage, &mut fresh, |d| d.setup_model(300.15));
    refused(Refusal::Stage, &mut sized(), bind);
    refused(Refusal::Stage, &mut sized(), |d| d.eval(&X, conditions(Method::None)));
    refused(Refusal::Stage, &mut bound(), |d| d.set_instance_params(&SIZES, &mut []));
    refused(Refusal::Stage, &mut evaluated(Method::None), bind);
    refused(Refusal::Stage, &mut bound(), |d| d.commit_timestep(&X));
    refused(Refusal::Stage, &mut bound(), |d| load(d, Load::DirectCurrent, &mut [0.0; 2], &mut [0.0; 4]));
    refused(Refusal::Stage, &mut bound(), |d| d.noise_sources(300.15, 1.0));
    refused(Refusal::Stage, &mut bound(), |d| d.small_signal_reactances());
}

#[test]
fn row_11_steps() {
    for h in [0.0, 1.1, -1.0, f64::NAN] {
        for method in [Method::Euler(h), Method::Trapezoid(h), Method::Gear(h, 0.5), Method::Gear(0.5, h)] {
            refused(Refusal::Step, &mut bound(), |d| d.eval(&X, conditions(method)));
        }
    }
    for alpha in [0.0, 1.1e16, f64::NAN] {
        refused(Refusal::Step, &mut evaluated(Method::None), |d| {
            load(d, Load::Transient(alpha), &mut [0.0; 2], &mut [0.0; 4])
        });
        // with a step alpha is not read
        load(&evaluated(Method::Euler(0.5)), Load::Transient(alpha), &mut [0.0; 2], &mut [0.0; 4]).unwrap();
    }
}

/// A load into a matrix that is refused; both slices hold what they held.
fn bad_matrix(expected: Refusal, columns: &[u32], offsets: &[usize], lengths: &[usize]) {
    let (mut rhs, mut values) = ([0.5; 2], [0.5; 4]);
    refused(expected, &mut evaluated(Method::Euler(0.5)), |d| {
        d.load(Load::Transient(0.0), &mut rhs, Matrix { values: &mut values, columns, offsets, lengths })
    });
    assert_eq!((rhs, values), ([0.5; 2], [0.5; 4]));
}

#[test]
fn row_12_patterns() {
    bad_matrix(Refusal::Pattern, &[0, 1, 0], &[0, 2], &[2, 2]);
    bad_matrix(Refusal::Pattern, &[0, 0, 0, 1], &[0, 2], &[2, 2]);
    bad_matrix(Refusal::Pattern, &[0, 1, 0, 1], &[0, 1], &[2, 2]);
    bad_matrix(Refusal::Pattern, &[0, 1, 0, 1], &[0, 3], &[2, 2]);
    bad_matrix(Refusal::Pattern, &[0, 1, 0, 1], &[0, usize::MAX], &[2, 2]);
    bad_matrix(Refusal::Pattern, &[0, 1, 0, 1], &[0, 2], &[2]);
}

#[test]
fn row_13_missing_cells() {
    bad_matrix(Refusal::MissingCell, &[0, 2, 0, 1], &[0, 2], &[2, 2]);
    bad_matrix(Refusal::MissingCell, &[0, 1, 0, 1], &[0, 2], &[2, 1]);
}

#[test]
fn row_100_tags() {
    let good = ConditionsRecord::from(conditions(Method::Gear(0.5, 0.5)));
    for tag in [4, 1 << 32, u64::MAX] {
        // 100 comes before all others: the voltages are bad too
        for x in [X, [f64::NAN; 2]] {
            for mut device in [bound(), evaluated(Method::Euler(0.5))] {
                let method = MethodRecord { tag, ..good.method };
                refused(Refusal::Tag, &mut device, |d| d.eval_at(&x, &ConditionsRecord { method, ..good }));
                for flag in [2, tag] {
                    refused(Refusal::Tag, &mut device, |d| d.eval_at(&x, &ConditionsRecord { limiter: flag, ..good }));
                    refused(Refusal::Tag, &mut device, |d| d.eval_at(&x, &ConditionsRecord { transient: flag, ..good }));
                }
            }
        }
    }
    assert_eq!(Refusal::Tag.number(), 100);
    bound().eval_at(&X, &good).unwrap();
}

#[test]
fn the_wrappers_own_room() {
    let keys = [("vto", 1.0); MAX_KEYS + 1];
    assert!(card(&keys[..MAX_KEYS]).is_ok());
    assert_eq!(card(&keys).err(), Some(Refusal::NoRoom));
    let long = "x".repeat(MAX_KEY_BYTES);
    assert!(card(&[(&long, 1.0)]).is_ok());
    assert_eq!(card(&[(&long, 1.0), ("y", 1.0)]).err(), Some(Refusal::NoRoom));
    refused(Refusal::NoRoom, &mut sized(), |d| d.set_instance_params(&keys, &mut []));
}
