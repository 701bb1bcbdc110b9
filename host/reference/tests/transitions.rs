//! One step: imminence, the deciding rule, the confluent orders, and elapsed times through a nest.

mod common;

use common::{run, started};
use reference::builder::{bag, phase, rule, Builder, NEVER};
use reference::limits::UNBOUNDED;
use reference::records::{Phase, Rule};

/// One atomic behind the root's input port 0, waiting in phase 0 of `count` passive phases.
fn waiting(count: u8) -> (Builder, usize) {
    let mut model = Builder::new();
    let phases: Vec<Phase> = (0..count).map(|_| phase(NEVER, 0, &[])).collect();
    let atomic = model.atomic(0, &phases);
    model.couple(0, 0, atomic, 0);
    (model, atomic)
}

fn phase_after(model: &Builder, t: u64, messages: &[(u8, u16)]) -> (u8, u64) {
    run(model, t, &bag(messages)).atomics[0]
}

#[test]
fn the_first_rule_in_file_order_decides() {
    let (mut model, atomic) = waiting(4);
    model.rule(rule(atomic, 1, 5, 3));
    model.rule(rule(atomic, 0, 6, 3));
    model.rule(rule(atomic, 0, 5, 2));
    model.rule(rule(atomic, 0, 5, 1));
    assert_eq!(phase_after(&model, 9, &[(0, 5)]), (2, 9));
    assert_eq!(phase_after(&model, 9, &[(0, 5), (0, 6)]), (3, 9));
}

#[test]
fn without_a_rule_the_stay_goes_on() {
    let (model, _) = waiting(2);
    assert_eq!(phase_after(&model, 9, &[(0, 5)]), (0, 0));
    let mut model = Builder::new();
    let atomic = model.atomic(0, &[phase(10, 0, &[(0, 1)])]);
    model.couple(0, 0, atomic, 0);
    model.couple(atomic, 0, 0, 0);
    let file = model.file();
    let mut buffer = started(&file);
    common::advance(&file, &mut buffer, 4, &bag(&[(0, 5)]), &mut []);
    assert_eq!(common::read(&file, &buffer, 0).next_due, 10);
}

#[test]
fn counts_on_port_and_value_range() {
    let (mut model, atomic) = waiting(2);
    model.couple(0, 1, atomic, 1);
    let range = Rule { low_value: 5, high_value: 256, least_count: 2, ..rule(atomic, 0, 0, 1) };
    model.rule(range);
    let after = |messages: &[(u8, u16)]| phase_after(&model, 1, messages).0;
    assert_eq!(after(&[(0, 5)]), 0);
    assert_eq!(after(&[(0, 5), (0, 256)]), 1);
    assert_eq!(after(&[(0, 5), (0, 5)]), 1);
    assert_eq!(after(&[(0, 4), (0, 257), (0, 5)]), 0);
    assert_eq!(after(&[(0, 5), (1, 5)]), 0);
}

#[test]
fn least_count_0_holds_for_every_bag() {
    let (mut model, atomic) = waiting(3);
    let none_needed = Rule { least_count: 0, port: 3, ..rule(atomic, 0, 999, 1) };
    model.rule(none_needed);
    assert_eq!(phase_after(&model, 9, &[(0, 5)]), (1, 9));
    // It wants a bag all the same: nothing happens without one.
    assert_eq!(phase_after(&model, 9, &[]), (0, 0));
    // It still wants its phase and its range of elapsed times.
    let (mut model, atomic) = waiting(3);
    model.rule(Rule { phase: 2, ..none_needed });
    model.rule(Rule { component: atomic as u8, high_elapsed: 8, ..none_needed });
    assert_eq!(phase_after(&model, 8, &[(0, 5)]), (1, 8));
    assert_eq!(phase_after(&model, 9, &[(0, 5)]), (0, 0));
}

#[test]
fn elapsed_ranges() {
    let after = |low: u32, high: u32, t: u64| {
        let (mut model, atomic) = waiting(2);
        model.rule(Rule { low_elapsed: low, high_elapsed: high, ..rule(atomic, 0, 5, 1) });
        phase_after(&model, t, &[(0, 5)]).0
    };
    assert_eq!([9, 10, 20, 21].map(|t| after(10, 20, t)), [0, 1, 1, 0]);
    // 4,294,967,295 as the high end is no end; one below it is a plain number.
    let top = u64::from(UNBOUNDED);
    assert_eq!(
        [9, 10, top, top + 1, 5_000_000_000].map(|t| after(10, UNBOUNDED, t)),
        [0, 1, 1, 1, 1]
    );
    assert_eq!([top - 1, top, top + 1].map(|t| after(0, UNBOUNDED - 1, t)), [1, 0, 0]);
    // As the low end it is the plain number.
    assert_eq!([top - 1, top, top + 1].map(|t| after(UNBOUNDED, UNBOUNDED, t)), [0, 1, 1]);
    assert_eq!(after(0, UNBOUNDED, 1_000_000_000_000), 1);
}

/// A ticker every 10 and a listener that is due at 10 too, with a rule in each phase.
fn collision(order: u8, rules: &[(u8, u32, u32, u8)]) -> (u8, u64) {
    let mut model = Builder::new();
    let ticker = model.atomic(0, &[phase(10, 0, &[(0, 7)])]);
    let phases =
        [phase(10, 1, &[]), phase(NEVER, 4, &[]), phase(NEVER, 5, &[]), phase(NEVER, 3, &[])];
    let mut phases = phases.to_vec();
    phases.extend([phase(NEVER, 4, &[]), phase(NEVER, 5, &[])]);
    let listener = model.atomic_from(0, 0, order, &phases);
    model.couple(ticker, 0, listener, 0);
    for &(from, low, high, to) in rules {
        model.rule(Rule { low_elapsed: low, high_elapsed: high, ..rule(listener, from, 7, to) });
    }
    run(&model, 10, &[]).atomics[1]
}

#[test]
fn confluent_order_0_next_phase_then_external_at_elapsed_0() {
    // Next phase of 0 is 1; the rule is looked for in phase 1 with elapsed time 0.
    assert_eq!(collision(0, &[(0, 0, UNBOUNDED, 3), (1, 0, UNBOUNDED, 2)]), (2, 10));
    assert_eq!(collision(0, &[(1, 0, 0, 2)]), (2, 10));
    assert_eq!(collision(0, &[(1, 1, UNBOUNDED, 2)]), (1, 10));
    assert_eq!(collision(0, &[]), (1, 10));
}

#[test]
fn confluent_order_1_external_at_the_advance_then_next_phase() {
    // The rule is looked for in phase 0 with elapsed time 10; then the next phase of where it led,
    // which is a passive one here.
    assert_eq!(collision(1, &[(1, 0, UNBOUNDED, 3), (0, 0, UNBOUNDED, 2)]), (5, 10));
    assert_eq!(collision(1, &[(0, 10, 10, 2)]), (5, 10));
    assert_eq!(collision(1, &[(0, 0, 9, 2)]), (1, 10));
    assert_eq!(collision(1, &[(0, 11, UNBOUNDED, 2)]), (1, 10));
    assert_eq!(collision(1, &[]), (1, 10));
}

#[test]
fn a_rule_into_the_same_phase_is_a_transition() {
    let (mut model, atomic) = waiting(1);
    model.rule(rule(atomic, 0, 5, 0));
    assert_eq!(phase_after(&model, 9, &[(0, 5)]), (0, 9));
}

#[test]
fn outputs_are_read_before_any_transition() {
    // Two atomics exchange messages in the same step, whichever stands first in the file.
    let mut model = Builder::new();
    let phases = [phase(1, 1, &[(0, 1)]), phase(NEVER, 1, &[(0, 2)]), phase(NEVER, 2, &[])];
    let left = model.atomic(0, &phases);
    let right = model.atomic(0, &phases);
    for (from, to) in [(left, right), (right, left)] {
        model.couple(from, 0, to, 0);
        model.rule(rule(from, 1, 1, 2));
    }
    assert_eq!(run(&model, 1, &[]).atomics, [(2, 1), (2, 1)]);
}

#[test]
fn two_copies_by_two_ways_stay_two() {
    let mut model = Builder::new();
    let source = model.atomic(0, &[phase(1, 0, &[(0, 7)])]);
    let around = model.coupled(0);
    let target = model.atomic(around, &[phase(NEVER, 0, &[]), phase(NEVER, 1, &[])]);
    model.couple(source, 0, around, 0);
    model.couple(source, 0, around, 1);
    model.couple(around, 0, target, 2);
    model.couple(around, 1, target, 2);
    model.rule(Rule { port: 2, least_count: 2, ..rule(target, 0, 7, 1) });
    assert_eq!(run(&model, 1, &[]).atomics[1], (1, 1));
}

#[test]
fn elapsed_time_is_the_atomics_own() {
    // The sibling in the same coupled component has a transition at 3; the elapsed time of the
    // other is counted from its own last moment.
    let mut model = Builder::new();
    let around = model.coupled(0);
    let sibling = model.atomic(around, &[phase(3, 1, &[]), phase(NEVER, 0, &[])]);
    let atomic = model.atomic(around, &[phase(NEVER, 0, &[]), phase(NEVER, 0, &[])]);
    assert_eq!(sibling, 2);
    model.couple(0, 0, around, 0);
    model.couple(around, 0, atomic, 0);
    model.rule(Rule { low_elapsed: 5, high_elapsed: 5, ..rule(atomic, 0, 5, 1) });
    assert_eq!(run(&model, 5, &bag(&[(0, 5)])).atomics, [(1, 3), (1, 5)]);
}

#[test]
fn a_way_goes_on_only_from_the_port_it_reached() {
    // The coupled component's input port 0 and output port 0 are two ports.
    let mut model = Builder::new();
    let around = model.coupled(0);
    let inside = model.atomic(around, &[phase(1, 0, &[(0, 7)])]);
    let outside = model.atomic(0, &[phase(NEVER, 0, &[])]);
    model.couple(inside, 0, around, 0);
    model.couple(around, 0, inside, 0);
    model.couple(around, 0, outside, 0);
    model.couple(0, 0, around, 0);
    let flat = reference::decode::decode(&common::flat(&model.file())).unwrap();
    let rows: Vec<_> =
        flat.couplings.iter().map(|c| (c.source, c.source_port, c.target, c.target_port)).collect();
    assert_eq!(rows, [(0, 0, 1, 0), (1, 0, 2, 0)]);
}

#[test]
fn through_eight_levels() {
    let mut model = Builder::new();
    let left = model.coupled_chain(0, 7);
    let source = model.atomic(left, &[phase(2, 0, &[(3, 9)])]);
    let right = model.coupled_chain(0, 7);
    let target = model.atomic(right, &[phase(NEVER, 0, &[]), phase(0, 0, &[(1, 4)])]);
    assert_eq!((source, target), (8, 16));
    model.couple(8, 3, 7, 0);
    (2..8).for_each(|c| model.couple(c, 0, c - 1, 0));
    model.couple(1, 0, 9, 0);
    (9..15).for_each(|c| model.couple(c, 0, c + 1, 0));
    model.couple(15, 0, 16, 0);
    model.rule(rule(target, 0, 9, 1));
    model.couple(16, 1, 15, 2);
    (10..16).for_each(|c| model.couple(c, 2, c - 1, 2));
    model.couple(9, 2, 0, 3);
    let outcome = run(&model, 2, &[]);
    assert_eq!(outcome.answer, (0, 1, 2, 15));
    assert_eq!(outcome.records, [(2, 1, vec![(3, 4)])]);
    assert_eq!(outcome.observed.deepest_transition, 8);
}

#[test]
fn never_is_not_49_days() {
    let (model, _) = waiting(1);
    let outcome = run(&model, 1_000_000_000_000, &[]);
    assert_eq!(outcome.answer, (0, 0, 0, 0));
    assert_eq!(outcome.open, 1_000_000_000_001);
}
