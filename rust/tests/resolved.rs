//! Cells resolved once, and the load by them: what is looked up, that it loads as the search does, each refusal, forged cells.
mod common;
use common::matrix::*;
use common::*;
use mivtolgya::*;

const SERIES: [(&str, f64); 9] = [
    ("vto", 0.7),
    ("tox", 1e-7),
    ("cgso", 1e-10),
    ("cgdo", 1e-10),
    ("cgbo", 1e-10),
    ("cj", 1e-4),
    ("cjsw", 1e-10),
    ("rd", 10.0),
    ("rs", 20.0),
];
const AREAS: [(&str, f64); 6] = [("w", 1e-5), ("l", 1e-6), ("as", 1e-10), ("ad", 1e-10), ("ps", 4e-5), ("pd", 4e-5)];
const VOLTS: [f64; 6] = [1.0, 3.0, 0.1, -0.2, 0.9, 0.15];
const LOADS: [Load; 2] = [Load::DirectCurrent, Load::Transient(0.0)];

/// Both slices after a load by cells. A refusal leaves them.
fn resolved(device: &Device, load: Load, cells: &Cells, rows: usize, count: usize) -> Result<Slices, Refusal> {
    after(contents(rows, count), |rhs, values| device.load_resolved(load, cells, rhs, values))
}

/// The load by cells gives the bits of the load that searches.
fn agree(device: &Device, layout: &Layout, cells: &Cells) {
    for load in LOADS {
        let found = resolved(device, load, cells, layout.offsets.len(), layout.columns.len());
        assert_eq!(found.map(bits_of), layout.searched(device, load).map(bits_of));
    }
}

/// A device with all capacitances and both inner nodes: terminals at rows 0 to 3, inner drain and source at 4 and 5.
fn series(terminals: [Node; 4]) -> Device {
    let mut device = card(&SERIES).unwrap();
    device.set_instance_params(&AREAS, &mut []).unwrap();
    device.setup_model(300.15).unwrap();
    let [drain, gate, source, bulk] = terminals;
    device.setup_instance(drain, gate, source, bulk, 4).unwrap();
    device
}

const ROWS: [Node; 4] = [Node::Row(0), Node::Row(1), Node::Row(2), Node::Row(3)];

fn run(mut device: Device) -> Device {
    device.eval(&VOLTS, conditions(Method::Euler(1e-9))).unwrap();
    device.commit_timestep(&VOLTS).unwrap();
    device.eval(&VOLTS.map(|v| 1.25 * v), conditions(Method::Trapezoid(1e-9))).unwrap();
    device
}

#[test]
fn the_record_has_37_numbers() {
    assert_eq!(std::mem::size_of::<Cells>(), 296);
    assert_eq!(std::mem::size_of::<ResolveOutcome>(), 304);
}

#[test]
fn resolve_answers_nodes_counts_and_places() {
    let cells = Layout::full(6, 2).resolve(&series(ROWS)).unwrap();
    // row r begins at 2 + 8 r
    let at = |pairs: &[(usize, usize)]| pairs.iter().map(|(r, c)| 2 + 8 * r + c).collect::<Vec<_>>();
    let (outer_d, g, outer_s, b, d, s) = (0, 1, 2, 3, 4, 5);
    assert_eq!((cells.nodes, cells.rows, cells.values), ([outer_d, outer_s, d, g, s, b], 6, 48));
    let channel = [(d, g), (d, d), (d, s), (d, b), (s, g), (s, d), (s, s), (s, b)];
    let four = |a, b| [(a, a), (a, b), (b, a), (b, b)];
    let pairs = [&channel[..], &four(outer_d, d), &four(outer_s, s), &four(b, s), &four(b, d)].concat();
    assert_eq!(cells.places.to_vec(), at(&pairs));
    assert_eq!(cells.gate_places.to_vec(), at(&[(g, g), (g, s), (g, d), (g, b), (b, g)]));
}

#[test]
fn ground_has_its_own_number() {
    let cells = Layout::full(2, 0).resolve(&bound()).unwrap();
    let ground = CELL_GROUND;
    assert_eq!(cells.nodes, [0, ground, 0, 1, ground, ground]);
    assert_eq!(cells.places[..8], [1, 0, ground, ground, ground, ground, ground, ground]);
    assert_eq!(cells.gate_places, [3, ground, 2, ground, ground]);
}

#[test]
fn loads_as_the_search_does() {
    let mut bindings = vec![ROWS, [Node::Ground; 4], [Node::Row(3), Node::Row(3), Node::Row(0), Node::Row(3)]];
    for at in 0..4 {
        bindings.push(ROWS);
        bindings.last_mut().unwrap()[at] = Node::Ground;
    }
    for binding in bindings {
        for gap in 0..3 {
            let layout = Layout::full(6, gap);
            let cells = layout.resolve(&series(binding)).unwrap();
            let device = run(series(binding));
            agree(&device, &layout, &cells);
            // an evaluated device is resolved to the same
            assert_eq!(layout.resolve(&device), Ok(cells));
        }
    }
}

#[test]
fn one_record_serves_devices_with_the_same_nodes() {
    let layout = Layout::full(2, 1);
    let cells = layout.resolve(&bound()).unwrap();
    agree(&evaluated(Method::Euler(0.5)), &layout, &cells);
    let (mut other, _) = Device::from_model_params(Polarity::Pmos, &[("cgdo", 1e-9)], &mut []).unwrap();
    other.set_instance_params(&[], &mut []).unwrap();
    other.setup_model(350.0).unwrap();
    other.setup_instance(Node::Row(0), Node::Row(1), Node::Ground, Node::Ground, 2).unwrap();
    other.eval(&X, conditions(Method::Euler(0.5))).unwrap();
    agree(&other, &layout, &cells);
}

#[test]
fn a_branch_without_capacitance_needs_no_cell() {
    // gate with gate: the overlap at the source needs it in a transient load
    let layout = Layout::without(2, 1, 1);
    let cells = layout.resolve(&bound()).unwrap();
    assert_eq!(cells.gate_places[0], CELL_ABSENT);
    let device = evaluated(Method::Euler(0.5));
    agree(&device, &layout, &cells);
    assert_eq!(resolved(&device, LOADS[1], &cells, 2, 3).err(), Some(Refusal::MissingCell));
    let mut bare = card(&[]).unwrap();
    bare.set_instance_params(&[], &mut []).unwrap();
    bare.setup_model(300.15).unwrap();
    bare.setup_instance(Node::Row(0), Node::Row(1), Node::Ground, Node::Ground, 2).unwrap();
    bare.eval(&X, conditions(Method::Euler(0.5))).unwrap();
    agree(&bare, &layout, &cells);
    assert!(resolved(&bare, LOADS[1], &cells, 2, 3).is_ok());
}

#[test]
fn resolve_refuses_by_its_rows() {
    let full = Layout::full(6, 0);
    let refuses = |refusal, device: &Device, layout: &Layout| refused(refusal, &mut device.clone(), |d| layout.resolve(d));
    refuses(Refusal::Node, &series(ROWS), &Layout::full(5, 0));
    refuses(Refusal::Stage, &sized(), &full);
    let malformed = [
        Layout { columns: full.columns[..35].to_vec(), ..full.clone() },
        Layout { lengths: full.lengths[..5].to_vec(), ..full.clone() },
        Layout { offsets: vec![0, 5, 12, 18, 24, 30], ..full.clone() },
        Layout { offsets: vec![0, 6, 12, 18, 24, usize::MAX], ..full.clone() },
        Layout { columns: vec![0; 36], ..full.clone() },
    ];
    for layout in &malformed {
        refuses(Refusal::Pattern, &series(ROWS), layout);
        // the lower number is answered
        refuses(Refusal::Stage, &sized(), layout);
    }
    for (row, column) in [(4, 1), (4, 4), (5, 3), (0, 4), (5, 2), (3, 3), (3, 5)] {
        refuses(Refusal::MissingCell, &series(ROWS), &Layout::without(6, row, column));
    }
    for (row, column) in [(1, 1), (1, 5), (1, 4), (1, 3), (3, 1), (0, 1), (2, 0)] {
        assert!(Layout::without(6, row, column).resolve(&series(ROWS)).is_ok());
    }
}

#[test]
fn load_resolved_refuses_by_its_rows() {
    let cells = Layout::full(6, 0).resolve(&series(ROWS)).unwrap();
    let device = run(series(ROWS));
    let refuses = |refusal, device: &Device, load, cells: &Cells, rows, count| {
        assert_eq!(resolved(device, load, cells, rows, count).err(), Some(refusal));
    };
    for load in LOADS {
        refuses(Refusal::Node, &device, load, &cells, 5, 36);
        refuses(Refusal::Node, &device, load, &Cells { rows: 5, ..cells }, 6, 36);
        refuses(Refusal::Stage, &series(ROWS), load, &cells, 6, 36);
        for count in [0, 35, 37] {
            refuses(Refusal::Pattern, &device, load, &cells, 6, count);
        }
    }
    let mut still = series(ROWS);
    still.eval(&VOLTS, conditions(Method::None)).unwrap();
    refuses(Refusal::Step, &still, Load::Transient(0.5), &cells, 6, 36);
    refuses(Refusal::Step, &still, Load::Transient(f64::NAN), &cells, 6, 36);
}

#[test]
fn cells_of_another_binding_are_refused() {
    let layout = Layout::full(6, 0);
    let device = run(series(ROWS));
    for at in 0..4 {
        let mut other = ROWS;
        other[at] = Node::Ground;
        let cells = layout.resolve(&series(other)).unwrap();
        assert_eq!(resolved(&device, LOADS[0], &cells, 6, 36).err(), Some(Refusal::MissingCell));
        let swapped = layout.resolve(&device).unwrap();
        assert_eq!(resolved(&run(series(other)), LOADS[0], &swapped, 6, 36).err(), Some(Refusal::MissingCell));
    }
}

#[test]
fn forged_places_are_tested_before_anything_is_written() {
    let layout = Layout::full(6, 0);
    let device = run(series(ROWS));
    let right = layout.resolve(&device).unwrap();
    for forged in [36, usize::MAX, CELL_ABSENT, 1 << 63] {
        for at in 0..24 {
            let mut cells = right;
            cells.places[at] = forged;
            assert_eq!(resolved(&device, LOADS[0], &cells, 6, 36).err(), Some(Refusal::MissingCell), "place {at}");
        }
        for at in 0..5 {
            let mut cells = right;
            cells.gate_places[at] = forged;
            assert!(resolved(&device, LOADS[0], &cells, 6, 36).is_ok());
            assert_eq!(resolved(&device, LOADS[1], &cells, 6, 36).err(), Some(Refusal::MissingCell), "gate place {at}");
        }
    }
    let zeros = Cells { nodes: [0; 6], rows: 0, values: 0, places: [0; 24], gate_places: [0; 5] };
    assert_eq!(resolved(&device, LOADS[1], &zeros, 6, 36).err(), Some(Refusal::Node));
}

#[test]
fn the_devices_nodes_decide_what_is_ground() {
    let layout = Layout::full(2, 0);
    let device = evaluated(Method::Euler(0.5));
    let right = layout.resolve(&device).unwrap();
    for forged in [0, 3, 4, CELL_ABSENT] {
        let instead = |places: &mut [usize]| places.iter_mut().filter(|p| **p == CELL_GROUND).for_each(|p| *p = forged);
        let mut cells = right;
        instead(&mut cells.places);
        instead(&mut cells.gate_places);
        agree(&device, &layout, &cells);
    }
}

#[test]
fn a_pattern_changed_since_is_not_noticed() {
    let (old, new) = (Layout::without(6, 0, 5), Layout::without(6, 2, 0));
    let device = run(series(ROWS));
    let cells = old.resolve(&device).unwrap();
    let found = resolved(&device, LOADS[1], &cells, 6, 35).map(bits_of);
    assert_eq!(found, old.searched(&device, LOADS[1]).map(bits_of));
    assert_ne!(found, new.searched(&device, LOADS[1]).map(bits_of));
    agree(&device, &new, &new.resolve(&device).unwrap());
}
