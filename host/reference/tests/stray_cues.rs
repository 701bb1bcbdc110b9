//! Stray cues: where no rule holds, an external transition keeps phase and last moment, so that the
//! stay goes on; a confluent one begins a stay in any case. Each test runs a hold under the root alone
//! and three levels deep, and every call is made on the nest, on its flat form and on the flat machine.

mod common;

use common::{advance, read, records, started, JUNK};
use reference::builder::{bag, phase, rule, Builder, NEVER};
use reference::examples::{hold, hold_among_strays, tick_among_strays};
use reference::examples::{AGAIN, AT_FOUR, AT_THE_END, CUE, EARLY, LATE, STRAY};
use reference::limits::UNBOUNDED;
use reference::records::Rule;

/// The levels on which the hold stands.
const ANCESTORS: [usize; 2] = [1, 4];

/// An advance call: its moment, and the values given on port 0.
type Given<'g> = (u64, &'g [u16]);

/// Where the hold stands after each call: phase, last moment, and the model's next due moment.
type Standing = (u64, u64, u64);

const NOTHING_DUE: u64 = u64::MAX;

/// Starts a model whose first atomic is looked at, makes the calls, and answers where that one stands
/// after each, and the moments of all records with the value that each has.
fn calls_on(model: &Builder, calls: &[Given]) -> (Vec<Standing>, Vec<(u64, u16)>) {
    let file = model.file();
    let mut run = started(&file);
    let mut standings = Vec::new();
    let mut seen = Vec::new();
    for &(t, values) in calls {
        let given: Vec<(u8, u16)> = values.iter().map(|&value| (0, value)).collect();
        let mut trace = vec![JUNK; 300];
        let answer = advance(&file, &mut run, t, &bag(&given), &mut trace);
        assert_eq!(answer.number, 0);
        let written = records(&trace[..answer.trace_bytes as usize]);
        seen.extend(written.into_iter().map(|(moment, _, messages)| (moment, messages[0].1)));
        let reading = read(&file, &run, 0);
        standings.push((reading.phase, reading.last, reading.next_due));
    }
    (standings, seen)
}

fn standings(order: u8, calls: &[Given], expected: &[Standing]) {
    for ancestors in ANCESTORS {
        let (standings, _) = calls_on(&hold(ancestors, order), calls);
        assert_eq!(standings, expected, "{ancestors} ancestors, order {order}");
    }
}

#[test]
fn a_hold_of_5_with_a_stray_at_3_goes_at_5() {
    for ancestors in ANCESTORS {
        let calls: [Given; 3] = [(10, &[CUE]), (13, &[STRAY]), (20, &[])];
        let (standings, seen) = calls_on(&hold(ancestors, 0), &calls);
        assert_eq!(standings, [(1, 10, 15), (1, 10, 15), (2, 15, 22)]);
        assert_eq!(seen, [(15, 100)]);
    }
}

#[test]
fn two_strays_change_no_more_than_one() {
    let calls: [Given; 4] = [(10, &[CUE]), (12, &[STRAY]), (14, &[STRAY, STRAY]), (15, &[])];
    standings(0, &calls, &[(1, 10, 15), (1, 10, 15), (1, 10, 15), (2, 15, 22)]);
}

#[test]
fn a_stray_and_a_cue_with_a_rule_in_one_bag() {
    let calls: [Given; 3] = [(10, &[STRAY, CUE]), (12, &[STRAY]), (13, &[AGAIN, STRAY])];
    standings(0, &calls, &[(1, 10, 15), (1, 10, 15), (1, 13, 18)]);
}

#[test]
fn a_rule_into_the_same_phase_begins_the_stay_afresh() {
    let calls: [Given; 4] = [(10, &[CUE]), (13, &[AGAIN]), (14, &[STRAY]), (17, &[AT_FOUR])];
    let after = [(1, 10, 15), (1, 13, 18), (1, 13, 18), (3, 17, NOTHING_DUE)];
    standings(0, &calls, &after);
}

#[test]
fn the_elapsed_time_goes_on_counting() {
    // The rule wants an elapsed time of exactly 4, and has no use for one since the stray.
    let calls: [Given; 3] = [(10, &[CUE]), (12, &[STRAY]), (14, &[AT_FOUR])];
    standings(0, &calls, &[(1, 10, 15), (1, 10, 15), (3, 14, NOTHING_DUE)]);
}

#[test]
fn a_confluent_transition_without_a_rule_sets_the_last_moment() {
    for order in [0, 1] {
        let after = [(1, 10, 15), (2, 15, 22), (0, 22, NOTHING_DUE)];
        standings(order, &[(10, &[CUE]), (15, &[STRAY]), (22, &[STRAY])], &after);
        // A stray before it makes no difference.
        let after = [(1, 10, 15), (1, 10, 15), (2, 15, 22)];
        standings(order, &[(10, &[CUE]), (13, &[STRAY]), (15, &[STRAY])], &after);
    }
}

#[test]
fn a_confluent_transition_into_the_same_phase_sets_the_last_moment() {
    for (order, ancestors) in [(0, 1), (1, 1), (0, 4), (1, 4)] {
        let model = tick_among_strays(ancestors, order);
        let calls: [Given; 4] = [(3, &[STRAY]), (5, &[STRAY]), (9, &[STRAY]), (15, &[STRAY])];
        let after = [(0, 0, 5), (0, 5, 10), (0, 5, 10), (0, 15, 20)];
        assert_eq!(calls_on(&model, &calls).0, after, "order {order}");
    }
}

#[test]
fn order_0_after_a_stray_has_elapsed_time_0() {
    let calls: [Given; 3] = [(10, &[CUE]), (13, &[STRAY]), (15, &[AT_THE_END])];
    standings(0, &calls, &[(1, 10, 15), (1, 10, 15), (3, 15, NOTHING_DUE)]);
}

#[test]
fn order_1_after_a_stray_has_the_whole_advance_as_elapsed_time() {
    // The rule leads from phase 1 to 3, and 4 is the next phase of that.
    let calls: [Given; 4] = [(10, &[CUE]), (12, &[STRAY]), (13, &[STRAY]), (15, &[AT_THE_END])];
    standings(1, &calls, &[(1, 10, 15), (1, 10, 15), (1, 10, 15), (4, 15, NOTHING_DUE)]);
}

#[test]
fn elapsed_times_past_32_bits_after_strays() {
    let top = u64::from(UNBOUNDED);
    let resting = (0, 0, NOTHING_DUE);
    let calls: [Given; 4] =
        [(1, &[STRAY]), (top - 2, &[STRAY]), (top - 1, &[LATE]), (top, &[LATE])];
    standings(0, &calls, &[resting, resting, resting, (3, top, NOTHING_DUE)]);
    // Neither the 3 since the stray nor the 3 that 32 bits have room for.
    let calls: [Given; 2] = [(1 << 32, &[STRAY]), ((1 << 32) + 3, &[EARLY])];
    standings(0, &calls, &[resting, resting]);
    let calls: [Given; 2] = [(500_000_000_000, &[STRAY]), (1_000_000_000_000, &[LATE])];
    standings(0, &calls, &[resting, (3, 1_000_000_000_000, NOTHING_DUE)]);
}

#[test]
fn a_step_of_strays_alone_is_a_step() {
    for ancestors in ANCESTORS {
        let outcome = common::run(&hold(ancestors, 0), 6, &bag(&[(0, STRAY); 16]));
        assert_eq!(outcome.answer, (0, 1, 1, 0));
        assert_eq!((outcome.open, outcome.atomics), (7, vec![(0, 0)]));
        let strays = outcome.observed.strays;
        assert_eq!((outcome.observed.external_without_rule, strays[ancestors - 1]), (1, 1));
    }
}

#[test]
fn strays_and_what_they_meet_in_one_call() {
    // Held from 1 to 6 with strays at 2 and 4 and a confluent one at 6; paused to 13 with more strays.
    for (order, ancestors) in [(0, 1), (1, 1), (0, 4), (1, 4)] {
        let model = hold_among_strays(ancestors, order);
        let (standings, seen) = calls_on(&model, &[(1, &[CUE]), (30, &[])]);
        assert_eq!(standings, [(1, 1, 2), (0, 13, 32)]);
        assert_eq!(seen, [(6, 100), (13, 200)]);
        let (standings, _) = calls_on(&model, &[(1, &[CUE]), (5, &[AT_FOUR])]);
        assert_eq!(standings[1], (3, 5, 6));
        let (standings, _) = calls_on(&model, &[(1, &[CUE]), (6, &[AT_THE_END])]);
        assert_eq!(standings[1], (if order == 0 { 3 } else { 4 }, 6, 8));
    }
}

#[test]
fn what_went_on_after_a_stray_is_observed() {
    let file = hold_among_strays(4, 1).file();
    let mut run = started(&file);
    let mut to = |t: u64, values: &[u16]| {
        let given: Vec<(u8, u16)> = values.iter().map(|&value| (0, value)).collect();
        common::advance_observed(&file, &mut run, t, &bag(&given), &mut [0; 60]).1
    };
    to(1, &[CUE]);
    let observed = to(5, &[AGAIN]);
    assert_eq!(observed.strays, [0, 0, 0, 2, 0, 0, 0, 0]);
    assert_eq!((observed.external_into_same_phase, observed.external_by_rule_after_stray), (1, 1));
    let observed = to(10, &[AT_THE_END]);
    assert_eq!(observed.strays[3], 2);
    assert_eq!(observed.confluent_external_first_after_stray, 1);
    assert_eq!(observed.confluent_external_first_without_rule, 0);
    assert_eq!(observed.internal_after_stray, 0);
}

#[test]
fn a_stray_for_one_is_none_for_its_siblings() {
    // Two in one coupled component hear everything; only the second has a rule, at an elapsed time of 6
    // to 6 counted from the start, whatever strays came before.
    let mut model = Builder::new();
    let around = model.coupled_chain(0, 2);
    let deaf = model.atomic(around, &[phase(10, 0, &[(0, 1)])]);
    let listener = model.atomic(around, &[phase(NEVER, 0, &[]), phase(NEVER, 1, &[])]);
    model.rule(Rule { low_elapsed: 6, high_elapsed: 6, ..rule(listener, 0, CUE, 1) });
    model.couple(0, 0, 1, 0);
    model.couple(1, 0, 2, 0);
    for atomic in [deaf, listener] {
        model.couple(around, 0, atomic, 0);
    }
    let file = model.file();
    let mut run = started(&file);
    for (t, cue) in [(2, STRAY), (4, CUE), (6, CUE)] {
        advance(&file, &mut run, t, &bag(&[(0, cue)]), &mut []);
    }
    assert_eq!(common::standing(&file, &run), (7, vec![(0, 0), (1, 6)]));
    assert_eq!(read(&file, &run, 0).next_due, 10);
}
