//! Room before building: the number of extra nodes, and the matrix that a bound device lays out.
mod common;
use common::*;
use mivtolgya::*;

const KEPT: usize = 77;

/// An NMOS with every capacitance, and series resistances of so many ohm; bound with its extra nodes from `first` on.
fn device(ohm: f64, [drain, gate, source, bulk]: [Node; 4], first: usize) -> Device {
    let mut device = unbound(ohm);
    device.setup_instance(drain, gate, source, bulk, first).unwrap();
    device
}

fn unbound(ohm: f64) -> Device {
    let capacitances = [("tox", 1e-7), ("cgso", 1e-10), ("cgdo", 1e-10), ("cgbo", 1e-10), ("cj", 1e-4)];
    let mut device = card(&[&capacitances[..], &[("rd", ohm), ("rs", ohm)]].concat()).unwrap();
    device.set_instance_params(&[("w", 1e-5), ("l", 1e-6), ("as", 1e-10), ("ad", 1e-10)], &mut []).unwrap();
    device.setup_model(300.15).unwrap();
    device
}

/// Columns, offsets and lengths.
type Slices = (Vec<u32>, Vec<usize>, Vec<usize>);

fn lent(columns: usize, offsets: usize, lengths: usize) -> Slices {
    (vec![KEPT as u32; columns], vec![KEPT; offsets], vec![KEPT; lengths])
}

/// What the call answers, and slices of these lengths afterwards.
fn lay_out(device: &Device, columns: usize, offsets: usize, lengths: usize) -> (Needed, Slices) {
    let mut slices = lent(columns, offsets, lengths);
    let needed = device.matrix_layout(&mut slices.0, &mut slices.1, &mut slices.2).unwrap();
    (needed, slices)
}

/// The pattern in slices that are as long as it needs.
fn pattern(device: &Device) -> Slices {
    let needed = device.matrix_layout(&mut [], &mut [], &mut []).unwrap();
    let (again, slices) = lay_out(device, needed.columns, needed.rows, needed.rows);
    assert_eq!(again, needed);
    slices
}

#[test]
fn extra_nodes_wait_for_the_geometry() {
    for (keys, count) in [(&[("rsh", 2.0)][..], 2), (&[("rd", 1.0)], 1), (&[("rd", 1.0), ("rs", 1.0)], 2), (&[], 0)] {
        let mut device = card(keys).unwrap();
        refused(Refusal::Stage, &mut device, |d| d.extra_nodes());
        device.set_instance_params(&[], &mut []).unwrap();
        assert_eq!(device.extra_nodes(), Ok(count));
        device.setup_model(300.15).unwrap();
        device.setup_instance(Node::Row(0), Node::Row(1), Node::Ground, Node::Ground, 2).unwrap();
        assert_eq!((device.extra_nodes(), device.num_extra_nodes()), (Ok(count), count));
    }
    // without a refusal, a sheet resistance counts for nothing before the geometry
    assert_eq!(card(&[("rsh", 2.0)]).unwrap().num_extra_nodes(), 0);
}

#[test]
fn the_gate_alone_off_ground() {
    let device = device(0.0, [Node::Ground, Node::Row(3), Node::Ground, Node::Ground], 9);
    let (needed, slices) = lay_out(&device, 3, 5, 6);
    assert_eq!(needed, Needed { columns: 1, rows: 4 });
    let kept = KEPT as u32;
    assert_eq!(slices, (vec![3, kept, kept], vec![0, 0, 0, 0, KEPT], vec![0, 0, 0, 1, KEPT, KEPT]));
}

#[test]
fn all_ground_needs_no_room() {
    let device = device(0.0, [Node::Ground; 4], 0);
    let none = Needed { columns: 0, rows: 0 };
    assert_eq!(lay_out(&device, 0, 0, 0), (none, lent(0, 0, 0)));
    assert_eq!(lay_out(&device, 2, 1, 3), (none, lent(2, 1, 3)));
}

const ROWS: [Node; 4] = [Node::Row(0), Node::Row(1), Node::Row(2), Node::Row(3)];

#[test]
fn six_nodes_and_four() {
    // inner drain 4, inner source 5
    let (columns, offsets, lengths) = pattern(&device(10.0, ROWS, 4));
    assert_eq!(columns, [0, 4, 1, 3, 4, 5, 2, 5, 1, 3, 4, 5, 0, 1, 3, 4, 5, 1, 2, 3, 4, 5]);
    assert_eq!((offsets, lengths), (vec![0, 2, 6, 8, 12, 17], vec![2, 4, 2, 4, 5, 5]));
    assert_eq!(columns.len(), LAYOUT_COLUMNS);
    let (columns, offsets, lengths) = pattern(&device(0.0, ROWS, 4));
    assert_eq!(columns, [[0, 1, 2, 3]; 4].concat());
    assert_eq!((offsets, lengths), (vec![0, 4, 8, 12], vec![4; 4]));
}

#[test]
fn nothing_is_written_where_one_slice_is_short_by_one() {
    let device = device(10.0, ROWS, 4);
    let all = Needed { columns: 22, rows: 6 };
    for (columns, offsets, lengths) in [(21, 6, 6), (22, 5, 6), (22, 6, 5), (21, 9, 9), (0, 0, 0)] {
        assert_eq!(lay_out(&device, columns, offsets, lengths), (all, lent(columns, offsets, lengths)));
    }
    assert_ne!(lay_out(&device, 22, 6, 6).1, lent(22, 6, 6));
}

#[test]
fn refused_before_the_binding() {
    let mut slices = lent(22, 6, 6);
    for mut device in [card(&[]).unwrap(), sized(), unbound(10.0)] {
        refused(Refusal::Stage, &mut device, |d| d.matrix_layout(&mut slices.0, &mut slices.1, &mut slices.2));
    }
    assert_eq!(slices, lent(22, 6, 6));
}

#[test]
fn the_largest_row() {
    let last = u32::MAX as usize;
    let device = device(0.0, [Node::Row(last), Node::Ground, Node::Ground, Node::Ground], 0);
    assert_eq!(lay_out(&device, 1, 8, 8), (Needed { columns: 1, rows: 1 << 32 }, lent(1, 8, 8)));
}

#[test]
fn the_layout_does_not_change_with_the_operating_point() {
    let mut device = device(10.0, ROWS, 4);
    let before = pattern(&device);
    for x in [[0.0; 6], [1.0, 3.0, 0.0, 0.0, 1.0, 0.0], [5.0, -2.0, 0.0, -1.0, 5.0, 0.0]] {
        device.eval(&x, conditions(Method::Euler(1e-9))).unwrap();
        device.commit_timestep(&x).unwrap();
        assert_eq!(pattern(&device), before);
    }
}

/// Each row's columns rise, each row begins where the one before it ends, and the last ends with the columns.
fn assert_packed((columns, offsets, lengths): &Slices) {
    let mut end = 0;
    for (offset, length) in offsets.iter().zip(lengths) {
        assert_eq!(*offset, end);
        end += length;
        assert!(columns[*offset..end].windows(2).all(|w| w[0] < w[1]));
    }
    assert_eq!(end, columns.len());
    assert!(columns.len() <= LAYOUT_COLUMNS);
}

const FULL: usize = 7;

/// A load on the layout adds what one into a full matrix does: none of its cells is missing.
fn assert_loads(device: &Device, load: Load, (columns, offsets, lengths): &Slices) {
    let (mut rhs, mut values) = (vec![0.0; offsets.len()], vec![0.0; columns.len()]);
    device.load(load, &mut rhs, Matrix { values: &mut values, columns, offsets, lengths }).unwrap();
    let cells = device.resolve(columns, offsets, lengths).unwrap();
    let (mut rhs_again, mut values_again) = (vec![0.0; offsets.len()], vec![0.0; columns.len()]);
    device.load_resolved(load, &cells, &mut rhs_again, &mut values_again).unwrap();
    assert_eq!((&rhs_again, &values_again), (&rhs, &values));
    let (mut side, mut full) = ([0.0; FULL], [0.0; FULL * FULL]);
    let every: Vec<u32> = (0..FULL * FULL).map(|i| (i % FULL) as u32).collect();
    let starts: Vec<usize> = (0..FULL).map(|i| i * FULL).collect();
    let matrix = Matrix { values: &mut full, columns: &every, offsets: &starts, lengths: &[FULL; FULL] };
    device.load(load, &mut side, matrix).unwrap();
    assert_eq!(side[..rhs.len()], rhs);
    for row in 0..offsets.len() {
        for i in offsets[row]..offsets[row] + lengths[row] {
            assert_eq!(values[i], full[row * FULL + columns[i] as usize]);
        }
    }
}

#[test]
fn no_load_on_the_layout_is_refused() {
    let volts = [1.0, 3.0, 0.25, -0.5, 2.0, 0.5, 0.75];
    let node = |n: usize| if n == 0 { Node::Ground } else { Node::Row(n - 1) };
    for (i, ohm) in (0..2 * 5usize.pow(4)).map(|i| (i / 2, [0.0, 10.0][i % 2])) {
        let terminals = [i, i / 5, i / 25, i / 125].map(|n| node(n % 5));
        for first in [2, 5] {
            let mut device = device(ohm, terminals, first);
            let slices = pattern(&device);
            assert_packed(&slices);
            device.eval(&volts, conditions(Method::Euler(1e-9))).unwrap();
            for load in [Load::DirectCurrent, Load::Transient(0.0)] {
                assert_loads(&device, load, &slices);
            }
        }
    }
}
