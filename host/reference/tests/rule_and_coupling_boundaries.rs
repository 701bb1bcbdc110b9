//! Rules, couplings and routes at their exact boundaries: the last that is accepted, the first that is refused.

mod common;

use common::check;
use reference::builder::{phase, rule, Builder, NEVER};
use reference::examples::{dead_ways, dead_ways_up_and_down, repeated_way_out};
use reference::records::{Phase, Rule};

/// A root with one atomic of the given phases.
fn single(phases: &[Phase]) -> Builder {
    let mut model = Builder::new();
    model.atomic(0, phases);
    model
}

fn resting(count: u8) -> Vec<Phase> {
    (0..count).map(|_| phase(NEVER, 0, &[])).collect()
}

#[test]
fn rule_count() {
    for (count, number) in [(1_024, 0), (1_025, 3)] {
        let mut model = single(&resting(1));
        (0..count).for_each(|_| model.rule(rule(1, 0, 0, 0)));
        assert_eq!(check(&model), number);
    }
}

#[test]
fn rule_fields() {
    let with = |rule: Rule| {
        let mut model = single(&resting(2));
        model.coupled(0);
        model.atomic(0, &resting(4));
        model.rule(rule);
        check(&model)
    };
    let good = Rule { phase: 1, next_phase: 1, port: 3, ..rule(1, 0, 0, 0) };
    assert_eq!(with(good), 0);
    for component in [0, 2, 4] {
        assert_eq!(with(Rule { component, ..good }), 7, "component {component}");
    }
    assert_eq!(with(Rule { phase: 2, ..good }), 7);
    assert_eq!(with(Rule { next_phase: 2, ..good }), 7);
    assert_eq!(with(Rule { port: 4, ..good }), 7);
    assert_eq!(with(Rule { low_value: 256, high_value: 255, ..good }), 7);
    assert_eq!(with(Rule { low_value: 256, high_value: 256, ..good }), 0);
    assert_eq!(with(Rule { low_elapsed: 256, high_elapsed: 255, ..good }), 7);
    assert_eq!(with(Rule { low_elapsed: u32::MAX, high_elapsed: u32::MAX, ..good }), 0);
    assert_eq!(with(Rule { least_count: 65_535, ..good }), 0);
}

#[test]
fn coupling_count() {
    for (count, number) in [(1_024, 0), (1_025, 3)] {
        let mut model = single(&resting(1));
        model.couple_times(count, 0, 0, 1, 0);
        assert_eq!(check(&model), number);
    }
}

#[test]
fn coupling_relations() {
    // 0 ─ 1 ─ 3 ─ 5, 0 ─ 2 ─ 4: coupled but for the atomics 4 and 5.
    let mut tree = Builder::new();
    tree.coupled(0);
    tree.coupled(0);
    tree.coupled(1);
    tree.atomic(2, &resting(1));
    tree.atomic(3, &resting(1));
    let legal = [
        (0, 1),
        (0, 2),
        (1, 0),
        (1, 2),
        (1, 3),
        (2, 0),
        (2, 1),
        (2, 4),
        (3, 1),
        (3, 5),
        (4, 2),
        (5, 3),
    ];
    for source in 0..7 {
        for target in 0..7 {
            let mut model = tree.clone();
            model.couple(source, 0, target, 0);
            let number = if legal.contains(&(source, target)) { 0 } else { 8 };
            assert_eq!(check(&model), number, "{source} to {target}");
        }
    }
    for ports in [(4, 0), (0, 4), (255, 255)] {
        let mut model = tree.clone();
        model.couple(0, ports.0, 1, ports.1);
        assert_eq!(check(&model), 8);
    }
}

#[test]
fn coupling_order() {
    // As little-endian numbers these rows would fall.
    let rows = [(0, 0, 1, 0), (0, 3, 1, 3), (0, 3, 1, 3), (1, 0, 0, 1)];
    let mut model = single(&resting(1));
    rows.iter().for_each(|&(s, p, t, q)| model.couple(s, p, t, q));
    let mut model = model.model();
    assert_eq!(reference::check_model(&model.encode()), 0);
    model.couplings.swap(2, 3);
    assert_eq!(reference::check_model(&model.encode()), 8);
}

#[test]
fn route_count() {
    assert_eq!(check(&repeated_way_out(32, 32)), 0);
    assert_eq!(check(&repeated_way_out(25, 41)), 9);
    assert_eq!(check(&repeated_way_out(512, 512)), 9);
}

#[test]
fn dead_ways_are_no_routes() {
    for model in [dead_ways(8, 146), dead_ways_up_and_down(8, 68)] {
        let file = model.file();
        assert_eq!(reference::check_model(&file), 0);
        assert_eq!(reference::decode::decode(&common::flat(&file)).unwrap().couplings, []);
        let outcome = common::run(&model, 3, &[]);
        assert_eq!(outcome.answer, (0, 3, 3, 0));
    }
    // One row to the root makes every one of them a route.
    let mut model = dead_ways(8, 140);
    model.couple(1, 0, 0, 0);
    assert_eq!(check(&model), 9);
}
