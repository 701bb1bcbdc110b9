//! Components and phases at their exact boundaries: the last that is accepted, the first that is refused.

mod common;

use common::check;
use reference::builder::{phase, Builder, NEVER};
use reference::records::{Component, Phase};

/// A root with one atomic of the given phases.
fn single(phases: &[Phase]) -> Builder {
    let mut model = Builder::new();
    model.atomic(0, phases);
    model
}

fn resting(count: u8) -> Vec<Phase> {
    (0..count).map(|_| phase(NEVER, 0, &[])).collect()
}

#[test]
fn a_lone_root_has_13_bytes() {
    let file = Builder::new().file();
    assert_eq!(file, [1, 0, 0, 0, 0, 0, 0, 0, 0, 0, 0, 0, 0]);
    assert_eq!(reference::check_model(&file), 0);
    assert_eq!(common::flat(&file), file);
}

#[test]
fn root_record() {
    for byte in 0..5 {
        let mut file = Builder::new().file();
        file[2 + byte] = 1;
        assert_eq!(reference::check_model(&file), 4, "byte {byte} of the root");
    }
}

#[test]
fn component_count() {
    let mut model = Builder::new();
    (1..64).for_each(|_| assert!(model.coupled(0) < 64));
    assert_eq!(check(&model), 0);
    model.coupled(0);
    assert_eq!(check(&model), 3);
    assert_eq!(reference::check_model(&[0, 0]), 3);
}

#[test]
fn ancestors() {
    for atomic in [false, true] {
        for (ancestors, number) in [(8, 0), (9, 4)] {
            let mut model = Builder::new();
            let parent = model.coupled_chain(0, ancestors - 1);
            match atomic {
                true => model.atomic(parent, &resting(1)),
                false => model.coupled(parent),
            };
            assert_eq!(check(&model), number, "{ancestors} ancestors, atomic {atomic}");
        }
    }
}

#[test]
fn parents() {
    let with_parent = |parent: usize| {
        let mut model = Builder::new();
        model.coupled(0);
        model.atomic(0, &resting(1));
        model.coupled(parent);
        check(&model)
    };
    // Components 0 and 1 are coupled, 2 is atomic, 3 is the component itself, 4 is absent.
    assert_eq!([0, 1, 2, 3, 4].map(with_parent), [0, 0, 4, 4, 4]);
}

#[test]
fn component_fields() {
    let check_record = |component: Component, phases: usize| {
        let mut model = Builder::new().model();
        model.components.push(component);
        model.phases = vec![phase(NEVER, 0, &[]); phases];
        reference::check_model(&model.encode())
    };
    let atomic = Component { kind: 1, parent: 0, phase_count: 2, initial_phase: 1, order: 1 };
    assert_eq!(check_record(atomic, 2), 0);
    assert_eq!(check_record(Component { kind: 2, ..atomic }, 2), 4);
    assert_eq!(check_record(Component { initial_phase: 2, ..atomic }, 2), 4);
    assert_eq!(check_record(Component { order: 2, ..atomic }, 2), 4);
    assert_eq!(check_record(Component { phase_count: 0, initial_phase: 0, ..atomic }, 0), 4);
    let coupled = Component::default();
    assert_eq!(check_record(coupled, 0), 0);
    assert_eq!(check_record(Component { phase_count: 1, ..coupled }, 1), 4);
    assert_eq!(check_record(Component { initial_phase: 1, ..coupled }, 0), 4);
    assert_eq!(check_record(Component { order: 1, ..coupled }, 0), 4);
}

#[test]
fn phases_of_an_atomic() {
    assert_eq!(check(&single(&resting(64))), 0);
    assert_eq!(check(&single(&resting(65))), 4);
}

#[test]
fn phase_count() {
    let mut model = Builder::new();
    (0..8).for_each(|_| assert!(model.atomic(0, &resting(64)) < 9));
    assert_eq!(check(&model), 0);
    model.atomic(0, &resting(1));
    assert_eq!(check(&model), 3);
}

#[test]
fn phase_count_is_the_sum() {
    for (count, number) in [(2, 5), (3, 0), (4, 5)] {
        let mut model = single(&resting(3)).model();
        model.phases = resting(count);
        assert_eq!(reference::check_model(&model.encode()), number);
    }
}

#[test]
fn advances() {
    let with = |advance: u32| check(&single(&[phase(advance, 0, &[])]));
    let advances = [0, 1_000_000_000, 1_000_000_001, 4_294_967_294, 4_294_967_295];
    assert_eq!(advances.map(with), [0, 0, 6, 6, 0]);
}

#[test]
fn next_phases() {
    let with = |next: u8| check(&single(&[phase(NEVER, next, &[]), phase(1, 0, &[])]));
    assert_eq!([0, 1, 2].map(with), [0, 0, 6]);
    // The bound is the atomic's own count, not that of the phases before it.
    let mut two = single(&resting(3));
    two.atomic(0, &[phase(NEVER, 1, &[])]);
    assert_eq!(check(&two), 6);
}

#[test]
fn output_slots() {
    let with = |outputs: &[(u8, u16)]| check(&single(&[phase(1, 0, outputs)]));
    assert_eq!(with(&[(0, 1), (0, 1), (3, 0), (3, 65_535)]), 0);
    assert_eq!(with(&[(0, 2), (0, 1)]), 6);
    assert_eq!(with(&[(1, 0), (0, 1)]), 6);
    assert_eq!(with(&[(4, 0)]), 6);
    // 256 is above 1 as a number, though its first byte is below.
    assert_eq!(with(&[(0, 1), (0, 256)]), 0);
    assert_eq!(with(&[(0, 256), (0, 1)]), 6);
    let mut record = phase(1, 0, &[(0, 1)]);
    record.output_count = 0;
    assert_eq!(check(&single(&[record])), 6, "an unused slot with a value");
    record.slots[0] = Default::default();
    record.slots[3].port = 1;
    assert_eq!(check(&single(&[record])), 6, "an unused slot with a port");
    record.slots[3].port = 0;
    record.output_count = 5;
    assert_eq!(check(&single(&[record])), 6, "five outputs");
}
