//! Instants and the trace: steps up to the limit, what an undone instant leaves, and the row "each instant".

mod common;

use common::{run, run_with, standing, started, JUNK};
use reference::builder::{bag, phase, rule, Builder, NEVER};
use reference::examples::{
    atomic_behind_rows, cue_source, full_root_bags, repeated_way_out, way_out, zero_stay_counter,
    Counting,
};

#[test]
fn exactly_1024_steps_and_one_more() {
    for (counting, steps, number) in [
        (Counting { by_bag: false, cycle: 31, rounds: 33, tail: 0 }, 1_024, 0),
        (Counting { by_bag: false, cycle: 31, rounds: 33, tail: 1 }, 1_025, 13),
        (Counting { by_bag: true, cycle: 30, rounds: 33, tail: 32 }, 1_024, 0),
        (Counting { by_bag: true, cycle: 30, rounds: 33, tail: 33 }, 1_025, 13),
        (Counting { by_bag: true, cycle: 3, rounds: 2, tail: 1 }, 9, 0),
        (Counting { by_bag: false, cycle: 1, rounds: 1, tail: 0 }, 2, 0),
    ] {
        assert_eq!(counting.steps(), steps);
        let given = if counting.by_bag { bag(&[(0, 5)]) } else { Vec::new() };
        let outcome = run(&zero_stay_counter(counting), 0, &given);
        assert_eq!(outcome.answer.0, number, "{counting:?}");
        let done = if number == 0 { (1, steps) } else { (0, 0) };
        assert_eq!((outcome.answer.1, outcome.answer.2), done);
        assert_eq!(outcome.open, if number == 0 { 1 } else { 0 });
        if counting.cycle > 1 && number == 0 {
            assert_eq!(outcome.records.len(), usize::from(counting.rounds) + 1);
            let first_round = u16::from(counting.cycle) - 1 + u16::from(counting.by_bag);
            assert_eq!(outcome.records[0], (0, first_round, vec![(0, 1)]));
        }
    }
}

#[test]
fn an_endless_instant_goes_before_a_full_trace() {
    // Every step puts something out, so the trace is too short long before step 1,024.
    let mut model = Builder::new();
    let atomic = model.atomic(0, &[phase(4, 1, &[]), phase(0, 1, &[(0, 1)])]);
    model.couple(atomic, 0, 0, 0);
    let outcome = run_with(&model, 9, &[], 20);
    assert_eq!(outcome.answer, (13, 0, 0, 0));
    assert_eq!((outcome.open, outcome.atomics), (0, vec![(0, 0)]));
}

#[test]
fn an_undone_instant_keeps_those_before() {
    // A tick at 2, 4, 6 with output; at 7 an endless instant.
    let mut model = Builder::new();
    let ticker = model.atomic(0, &[phase(2, 0, &[(0, 1)])]);
    model.couple(ticker, 0, 0, 0);
    model.atomic(0, &[phase(7, 1, &[]), phase(0, 1, &[])]);
    let file = model.file();
    let mut buffer = started(&file);
    let mut trace = vec![JUNK; 100];
    let answer = common::advance(&file, &mut buffer, 100, &[], &mut trace);
    assert_eq!((answer.number, answer.instants, answer.steps, answer.trace_bytes), (13, 3, 3, 45));
    assert_eq!(standing(&file, &buffer), (7, vec![(0, 6), (0, 0)]));
    assert!(trace[45..].iter().all(|&byte| byte == JUNK));
    // A second call does nothing: the open moment is as before.
    let before = buffer.clone();
    let answer = common::advance(&file, &mut buffer, 100, &[], &mut trace);
    assert_eq!((answer.number, answer.instants, answer.steps, answer.trace_bytes), (13, 0, 0, 0));
    assert_eq!(buffer, before);
}

#[test]
fn trace_exactly_full() {
    for (length, number, bytes) in [(29, 15, 15), (30, 0, 30), (31, 0, 30)] {
        let outcome = run_with(&cue_source(0, 1), 30, &[], length);
        assert_eq!((outcome.answer.0, outcome.answer.3), (number, bytes));
    }
    // An instant without records never wants room.
    assert_eq!(run_with(&cue_source(0, 1), 19, &[], 0).answer, (0, 1, 2, 0));
    assert_eq!(run_with(&cue_source(0, 1), 20, &[], 0).answer, (15, 1, 2, 0));
}

#[test]
fn all_records_of_an_instant_or_none() {
    // Two records in one instant, room for one.
    let mut model = Builder::new();
    let atomic =
        model.atomic(0, &[phase(5, 1, &[(0, 1)]), phase(0, 2, &[(0, 2)]), phase(NEVER, 0, &[])]);
    model.couple(atomic, 0, 0, 0);
    assert_eq!(run_with(&model, 5, &[], 29).answer, (15, 0, 0, 0));
    let outcome = run_with(&model, 5, &[], 30);
    assert_eq!(outcome.answer, (0, 1, 2, 30));
    assert_eq!(outcome.records, [(5, 0, vec![(0, 1)]), (5, 1, vec![(0, 2)])]);
}

#[test]
fn a_moment_without_a_step_is_no_instant() {
    let outcome = run(&cue_source(0, 1), 9, &[]);
    assert_eq!(outcome.answer, (0, 0, 0, 0));
    assert_eq!(outcome.open, 10);
    assert_eq!(run(&cue_source(0, 1), 10, &[]).answer, (0, 1, 2, 0));
}

#[test]
fn the_bag_belongs_to_the_first_step_at_t() {
    // Something is due at 3 and 5; the bag comes with 5 and meets the same step.
    let mut model = Builder::new();
    let first = model
        .atomic(0, &[phase(3, 1, &[]), phase(2, 2, &[]), phase(0, 3, &[]), phase(NEVER, 3, &[])]);
    let counter =
        model.atomic(0, &[phase(NEVER, 0, &[]), phase(NEVER, 0, &[]), phase(NEVER, 0, &[])]);
    assert_eq!(first, 1);
    model.rule(rule(counter, 0, 5, 1));
    model.rule(rule(counter, 1, 5, 2));
    model.couple(0, 0, counter, 0);
    let outcome = run(&model, 5, &bag(&[(0, 5)]));
    assert_eq!(outcome.answer, (0, 2, 3, 0));
    assert_eq!(outcome.atomics, [(3, 5), (1, 5)]);
}

#[test]
fn the_root_bag_is_sorted_and_may_have_4096() {
    let outcome = run_with(&repeated_way_out(32, 32), 3, &[], 12_300);
    assert_eq!(outcome.answer, (0, 1, 1, 12_300));
    assert_eq!(outcome.observed.largest_root_bag, 4_096);
    let values = &outcome.records[0].2;
    assert!(values.windows(2).all(|pair| pair[0] <= pair[1]));
    let count = |value| values.iter().filter(|&&message| message == (1, value)).count();
    assert_eq!([9, 256, 300].map(count), [1_024, 2_048, 1_024]);
    assert_eq!(run_with(&repeated_way_out(32, 32), 3, &[], 12_299).answer.0, 15);
}

#[test]
fn every_step_and_every_instant_may_put_4096_out() {
    let given = bag(&[(0, 7); 16]);
    for (steps, instants) in [(64, 1), (1, 6), (3, 2)] {
        let model = full_root_bags(steps as u8);
        let answer =
            |number, instants| (number, instants, instants * steps, 12_300 * instants * steps);
        let (t, length) = (3 * instants, 12_300 * (instants * steps) as usize);
        let outcome = run_with(&model, t, &given, length);
        assert_eq!(outcome.answer, answer(0, instants));
        assert_eq!(outcome.records.len() as u64, instants * steps);
        assert!(outcome.records.iter().all(|(.., messages)| messages.len() == 4_096));
        let outcome = run_with(&model, t, &given, length - 1);
        assert_eq!(outcome.answer, answer(15, instants - 1));
    }
}

#[test]
fn an_endless_instant_may_put_4096_out() {
    let full = [(0, 1), (0, 2), (0, 3), (0, 4)];
    let model = way_out(&[phase(3, 1, &full), phase(0, 2, &full), phase(0, 2, &[])], 32, 32);
    for length in [0, 12_300, 24_599, 24_600, 30_000] {
        let outcome = run_with(&model, 5, &[], length);
        assert_eq!(outcome.answer, (13, 0, 0, 0));
        assert_eq!((outcome.open, outcome.atomics), (0, vec![(0, 0)]));
        assert_eq!(outcome.observed.largest_root_bag, 4_096);
    }
}

#[test]
fn an_atomic_bag_of_16384() {
    let given = bag(&[(0, 77); 16]);
    let outcome = run(&atomic_behind_rows(1_024, 16_384), 2, &given);
    assert_eq!(outcome.atomics, [(1, 2)]);
    assert_eq!(outcome.observed.largest_decided_bag, 16_384);
    assert_eq!(run(&atomic_behind_rows(1_024, 16_385), 2, &given).atomics, [(0, 0)]);
    assert_eq!(run(&atomic_behind_rows(1_023, 16_384), 2, &given).atomics, [(0, 0)]);
}

#[test]
fn the_order_of_a_bag_changes_nothing() {
    let mut model = Builder::new();
    let atomic = model.atomic(0, &[phase(NEVER, 0, &[]), phase(0, 0, &[(0, 1)])]);
    model.couple(0, 0, atomic, 0);
    model.couple(0, 1, atomic, 0);
    model.couple(atomic, 0, 0, 0);
    model.rule(rule(atomic, 0, 3, 1));
    let there = run(&model, 8, &bag(&[(0, 3), (1, 9), (0, 1)]));
    let back = run(&model, 8, &bag(&[(0, 1), (1, 9), (0, 3)]));
    assert_eq!((there.answer, &there.records), (back.answer, &back.records));
    assert_eq!(there.records, [(8, 1, vec![(0, 1)])]);
}
