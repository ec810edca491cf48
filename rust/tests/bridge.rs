//! The loads of a block and of a whole bridge: that they are loads one after another, bit for bit, the runs of rows, each refusal.
mod common;
use common::half_bridge::*;
use common::matrix::*;
use mivtolgya::*;

/// Both slices after the load of a block, from these contents.
fn block_load(bank: &[Device], block: usize, runs: Runs, load: Load, layout: &Layout, before: Slices) -> Result<Slices, Refusal> {
    after(before, |rhs, values| load_block(bank, block, runs, load, rhs, layout.matrix(values)))
}

/// Both slices after the load of a whole bridge, from these contents.
fn bridge_load(bank: &[Device], runs: Runs, load: Load, layout: &Layout, before: Slices) -> Result<Slices, Refusal> {
    after(before, |rhs, values| load_bridge(bank, runs, load, rhs, layout.matrix(values)))
}

#[test]
fn a_device_is_its_record() {
    assert_eq!(std::mem::size_of::<[Device; 3]>(), 3 * 904);
}

#[test]
fn a_block_is_its_devices_loaded_on_its_run() {
    for (block, devices) in blocks().iter().enumerate() {
        let (start, count) = (RUNS.starts[block], RUNS.counts[block]);
        for (load, gap) in LOADS.iter().flat_map(|load| [(*load, 0), (*load, 2)]) {
            let layout = Layout::full(count as u32, gap);
            let before = contents(SIDE, layout.columns.len());
            let part = (before.0[start..start + count].to_vec(), before.1.clone());
            let (part, values) = one_after_another(devices, load, &layout, part);
            let mut rhs = before.0.clone();
            rhs[start..start + count].copy_from_slice(&part);
            assert_ne!(rhs, before.0);
            let found = block_load(devices, block, RUNS, load, &layout, before);
            assert_eq!(found.map(bits_of), Ok(bits_of((rhs, values))));
        }
    }
}

#[test]
fn the_bridge_is_zeroed_and_loaded_in_device_order() {
    let mut devices = bridge();
    for (load, gap) in LOADS.iter().flat_map(|load| [(*load, 0), (*load, 3)]) {
        let layout = Layout::full(ROWS, gap);
        let expected = bits_of(from_zeros(&devices, load, &layout));
        for before in [contents(SIDE, layout.columns.len()), rubbish(&layout)] {
            assert_eq!(bridge_load(&devices, RUNS, load, &layout, before).map(bits_of), Ok(expected.clone()));
        }
        // another order of the devices rounds otherwise
        devices.reverse();
        assert_ne!(bits_of(from_zeros(&devices, load, &layout)), expected);
        devices.reverse();
    }
}

/// What the loads of the bridge and of every block say of runs in a right-hand side of ten rows, without a device.
fn runs(starts: &[usize], counts: &[usize]) -> Result<(), Refusal> {
    let (runs, none) = (Runs { starts, counts }, Layout::full(0, 0));
    let answer = bridge_load(&[], runs, LOADS[0], &none, contents(10, 0)).map(|_| ());
    for block in 0..starts.len() {
        assert_eq!(block_load(&[], block, runs, LOADS[0], &none, contents(10, 0)).map(|_| ()), answer);
    }
    answer
}

#[test]
fn runs_touch_but_do_not_overlap() {
    assert_eq!(runs(&[0, 4, 7], &[4, 3, 3]), Ok(()));
    assert_eq!(runs(&[7, 0, 4], &[3, 4, 3]), Ok(()));
    assert_eq!(runs(&[], &[]), Ok(()));
    for (starts, counts) in [([0, 3, 7], [4, 3, 3]), ([0, 4, 6], [4, 3, 3]), ([0, 4, 0], [4, 3, 1]), ([2, 2, 2], [1, 0, 1])] {
        assert_eq!(runs(&starts, &counts), Err(Refusal::Run));
    }
}

#[test]
fn runs_stay_inside() {
    assert_eq!(runs(&[0], &[10]), Ok(()));
    for (start, count) in [(0, 11), (1, 10), (10, 1), (11, 0), (usize::MAX, 1), (usize::MAX, 0), (1, usize::MAX)] {
        assert_eq!(runs(&[2, start], &[0, count]), Err(Refusal::Run), "{start} {count}");
    }
}

#[test]
fn empty_runs_overlap_nothing() {
    assert_eq!(runs(&[0, 5, 10, 5], &[10, 0, 0, 0]), Ok(()));
}

#[test]
fn runs_are_equally_many_starts_and_counts() {
    let none = Layout::full(0, 0);
    for (starts, counts) in [(&[0, 4][..], &[4][..]), (&[0], &[4, 4]), (&[], &[0]), (&[0], &[])] {
        let runs = Runs { starts, counts };
        assert_eq!(bridge_load(&[], runs, LOADS[0], &none, contents(10, 0)).err(), Some(Refusal::Run));
        assert_eq!(block_load(&[], 0, runs, LOADS[0], &none, contents(10, 0)).err(), Some(Refusal::Run));
    }
}

#[test]
fn a_block_without_a_run() {
    let none = Layout::full(0, 0);
    for block in [3, 4, usize::MAX] {
        assert_eq!(block_load(&[], block, RUNS, LOADS[0], &none, contents(SIDE, 0)).err(), Some(Refusal::Run));
    }
    let empty = Runs { starts: &[], counts: &[] };
    assert_eq!(block_load(&[], 0, empty, LOADS[0], &none, contents(SIDE, 0)).err(), Some(Refusal::Run));
}

#[test]
fn sixty_four_devices() {
    // all of them at ground, with one row of right-hand side: zeroed where 64 are loaded, kept where there is one more
    let mut device = transistor(Polarity::Nmos, &[], [Node::Ground; 3], 0);
    device = run(vec![device], &[]).remove(0);
    let (mut devices, none) = (vec![device; MOST_DEVICES], Layout::full(0, 0));
    let one = Runs { starts: &[0], counts: &[1] };
    let before = || (vec![0.5], vec![]);
    assert_eq!(bridge_load(&devices, one, LOADS[1], &none, before()), Ok((vec![0.0], vec![])));
    assert_eq!(block_load(&devices, 0, one, LOADS[1], &none, before()), Ok(before()));
    devices.push(devices[0].clone());
    assert_eq!(bridge_load(&devices, one, LOADS[1], &none, before()).err(), Some(Refusal::Run));
    assert_eq!(block_load(&devices, 0, one, LOADS[1], &none, before()).err(), Some(Refusal::Run));
}

#[test]
fn no_device() {
    let layout = Layout::full(3, 1);
    let before = contents(SIDE, layout.columns.len());
    let zeros = (vec![0.0; SIDE], vec![0.0; layout.columns.len()]);
    assert_eq!(bridge_load(&[], RUNS, LOADS[0], &layout, rubbish(&layout)).map(bits_of), Ok(bits_of(zeros)));
    assert_eq!(block_load(&[], 2, RUNS, LOADS[0], &layout, before.clone()), Ok(before.clone()));
    // the pattern is tested all the same
    let short = Layout { lengths: vec![3; 2], ..layout };
    assert_eq!(bridge_load(&[], RUNS, LOADS[0], &short, before.clone()).err(), Some(Refusal::Pattern));
    assert_eq!(block_load(&[], 2, RUNS, LOADS[0], &short, before).err(), Some(Refusal::Pattern));
}

#[test]
fn a_blocks_nodes_lie_in_its_run() {
    // the run of the clamp has three rows, in which a device of the high side has none for its inner drain
    let devices = &blocks()[0];
    for layout in [Layout::full(5, 0), Layout::full(3, 0)] {
        let before = contents(SIDE, layout.columns.len());
        assert_eq!(block_load(devices, 2, RUNS, LOADS[0], &layout, before).err(), Some(Refusal::Node));
    }
    let layout = Layout::full(4, 0);
    assert_eq!(block_load(devices, 0, RUNS, LOADS[0], &layout, contents(SIDE, 16)).err(), Some(Refusal::Node));
}

/// What both loads answer, which leave both slices: the bridge by itself, and as the one block of a run over all rows.
fn refuses(expected: Refusal, devices: &[Device], runs: Runs, load: Load, layout: &Layout) {
    let before = || rubbish(layout);
    assert_eq!(bridge_load(devices, runs, load, layout, before()).err(), Some(expected));
    assert_eq!(block_load(devices, 0, runs, load, layout, before()).err(), Some(expected));
}

const WHOLE: Runs = Runs { starts: &[0], counts: &[SIDE] };

#[test]
fn a_refusal_of_the_last_device_leaves_both_slices() {
    let full = Layout::full(ROWS, 1);
    let mut devices = bridge();
    *devices.last_mut().unwrap() = bound_bridge().pop().unwrap();
    for load in LOADS {
        refuses(Refusal::Stage, &devices, WHOLE, load, &full);
        // the supply's row, the column of the clamp's gate: no other device has that cell
        let layout = Layout::without(ROWS, 0, 4);
        refuses(Refusal::MissingCell, &bridge(), WHOLE, load, &layout);
    }
}

#[test]
fn the_lowest_number_over_all_devices() {
    let overlapping = Runs { starts: &[0, 3], counts: &[4, 1] };
    let transient = Load::Transient(0.0);
    let mut devices = bridge();
    // the first one misses a cell, whatever the others do
    let missing = Layout::without(ROWS, 0, 5);
    refuses(Refusal::MissingCell, &devices, WHOLE, transient, &missing);
    let mut bad = missing.clone();
    bad.lengths.pop();
    refuses(Refusal::Pattern, &devices, WHOLE, transient, &bad);
    // the third one has no step, nor is there an alpha
    let still = Conditions { temperature: 300.15, gmin: 0.0, limiter: false, transient: true, method: Method::None };
    devices[2].eval(&VOLTS, still).unwrap();
    refuses(Refusal::Step, &devices, WHOLE, transient, &bad);
    // the second one is not evaluated
    devices[1] = bound_bridge().swap_remove(1);
    refuses(Refusal::Stage, &devices, WHOLE, transient, &bad);
    // the last one has a row that nothing has
    devices.push(run(vec![power([0, 1], Node::Ground, SIDE)], &[0.0; SIDE + 1]).remove(0));
    refuses(Refusal::Node, &devices, WHOLE, transient, &bad);
    refuses(Refusal::Run, &devices, overlapping, transient, &bad);
}
