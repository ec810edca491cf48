//! The load of a whole bridge by cells that were resolved for each device: that it is the load that searches, each refusal.
mod common;
use common::half_bridge::*;
use common::matrix::*;
use mivtolgya::*;

const NONE: Runs = Runs { starts: &[], counts: &[] };

/// Both slices after the load by cells, from these contents.
fn by_cells(devices: &[Device], runs: Runs, load: Load, cells: &[Cells], before: Slices) -> Result<Slices, Refusal> {
    after(before, |rhs, values| load_bridge_resolved(devices, runs, load, cells, rhs, values))
}

fn cells_of(devices: &[Device], layout: &Layout) -> Vec<Cells> {
    devices.iter().map(|device| layout.resolve(device).unwrap()).collect()
}

#[test]
fn loads_as_the_search_does() {
    let devices = bridge();
    for (load, gap) in LOADS.iter().flat_map(|load| [(*load, 0), (*load, 3)]) {
        let layout = Layout::full(ROWS, gap);
        let cells = cells_of(&bound_bridge(), &layout);
        let expected = bits_of(from_zeros(&devices, load, &layout));
        for before in [contents(SIDE, layout.columns.len()), rubbish(&layout)] {
            assert_eq!(by_cells(&devices, RUNS, load, &cells, before).map(bits_of), Ok(expected.clone()));
        }
    }
}

#[test]
fn a_list_for_each_device() {
    let (devices, layout) = (bridge(), Layout::full(ROWS, 0));
    let mut cells = cells_of(&devices, &layout);
    for fewer in 0..cells.len() {
        assert_eq!(by_cells(&devices, RUNS, LOADS[0], &cells[..fewer], rubbish(&layout)).err(), Some(Refusal::MissingCell));
    }
    // one behind the last device is not read
    cells.push(Cells { nodes: [7; 6], rows: 0, values: 0, places: [usize::MAX - 1; 24], gate_places: [0; 5] });
    assert!(by_cells(&devices, RUNS, LOADS[0], &cells, rubbish(&layout)).is_ok());
    // two devices' lists exchanged
    cells.swap(3, 4);
    assert_eq!(by_cells(&devices, RUNS, LOADS[0], &cells, rubbish(&layout)).err(), Some(Refusal::MissingCell));
}

#[test]
fn no_device() {
    let layout = Layout::full(3, 1);
    let zeros = (vec![0.0; SIDE], vec![0.0; layout.columns.len()]);
    assert_eq!(by_cells(&[], RUNS, LOADS[0], &[], rubbish(&layout)).map(bits_of), Ok(bits_of(zeros)));
    let far = Runs { starts: &[SIDE], counts: &[1] };
    assert_eq!(by_cells(&[], far, LOADS[0], &[], rubbish(&layout)).err(), Some(Refusal::Run));
}

#[test]
fn the_lowest_number_over_all_devices() {
    let (mut devices, layout) = (bridge(), Layout::full(ROWS, 0));
    let mut cells = cells_of(&devices, &layout);
    let refuses = |refusal, devices: &[Device], runs, cells: &[Cells]| {
        assert_eq!(by_cells(devices, runs, Load::Transient(0.0), cells, rubbish(&layout)).err(), Some(refusal));
    };
    // the last one has a place behind the values
    cells[4].places[0] = layout.columns.len();
    refuses(Refusal::MissingCell, &devices, NONE, &cells);
    // the one before it was resolved for another matrix
    cells[3].values += 1;
    refuses(Refusal::Pattern, &devices, NONE, &cells);
    // the third one has no step, nor is there an alpha
    let still = Conditions { temperature: 300.15, gmin: 0.0, limiter: false, transient: true, method: Method::None };
    devices[2].eval(&VOLTS, still).unwrap();
    refuses(Refusal::Step, &devices, NONE, &cells);
    // the second one is not evaluated
    devices[1] = bound_bridge().swap_remove(1);
    refuses(Refusal::Stage, &devices, NONE, &cells);
    // the first one was resolved for fewer rows than it has
    cells[0].rows = 5;
    refuses(Refusal::Node, &devices, NONE, &cells);
    refuses(Refusal::Run, &devices, Runs { starts: &[3, 0], counts: &[1, 4] }, &cells);
    let many = vec![devices[0].clone(); MOST_DEVICES + 1];
    refuses(Refusal::Run, &many, NONE, &cells);
}
