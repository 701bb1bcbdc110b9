//! Elapsed ranges under either reading: on which ticks a rule holds, in external and confluent transitions,
//! and what becomes of the reading in a flat form. Every call is made on the nest, on its flat form and on
//! the flat machine. Which files are half-open, and which are refused, stands in fifth_section.rs.

mod common;

use common::{advance_lighting, flat, read, run, started, JUNK};
use reference::builder::{bag, phase, rule, Builder, NEVER};
use reference::decode::decode;
use reference::examples::{cue_in_ranges, CUE};
use reference::limits::{NO_RULE, UNBOUNDED};
use reference::ranges::Ranges::{self, HalfOpen, Inclusive};
use reference::records::Rule;

/// The levels on which the atomic stands.
const ANCESTORS: [usize; 3] = [1, 4, 8];

const TOP: u64 = UNBOUNDED as u64;
const MEETING: [(u32, u32); 2] = [(0, 500), (500, UNBOUNDED)];

/// A started model, and the phase and the last moment of its atomic after a cue at t; then the rule lit.
fn cue_at(model: Builder, reading: Ranges, t: u64) -> (u64, u64, u16) {
    let file = model.read_as(reading).file();
    let mut run = started(&file);
    let mut rules = [JUNK; 2];
    advance_lighting(&file, &mut run, t, &bag(&[(0, CUE)]), &mut [], &mut rules);
    let reading = read(&file, &run, 0);
    (reading.phase, reading.last, u16::from_le_bytes(rules))
}

/// Which range decides at each of these moments, by either reading: 1 or 2, or 0 for none.
fn decides(advance: u32, order: u8, ranges: &[(u32, u32)], ticks: &[(u64, u64, u64)]) {
    for ancestors in ANCESTORS {
        for &(t, inclusive, half_open) in ticks {
            for (reading, range) in [(Inclusive, inclusive), (HalfOpen, half_open)] {
                let is_due = advance != NEVER && t == u64::from(advance);
                // Order 0 searches among the rules of phase 3, each of which stands after that of phase 0.
                let position =
                    |range: u64| 2 * (range as u16 - 1) + u16::from(is_due && order == 0);
                let rule = if range > 0 { position(range) } else { NO_RULE };
                let last = if range > 0 || is_due { t } else { 0 };
                let expected = (range + if is_due { 3 } else { 0 }, last, rule);
                let model = cue_in_ranges(ancestors, order, advance, ranges);
                let what = format!("{reading:?}, {ranges:?} at {t}, {ancestors} ancestors");
                assert_eq!(cue_at(model, reading, t), expected, "{what}");
            }
        }
    }
}

#[test]
fn two_rules_that_meet_at_500() {
    for order in [0, 1] {
        decides(NEVER, order, &MEETING, &[(499, 1, 1), (500, 1, 2), (501, 2, 2)]);
        // The low end belongs to the range by either reading.
        let later_first = [MEETING[1], MEETING[0]];
        decides(NEVER, order, &later_first, &[(499, 2, 2), (500, 1, 1), (501, 1, 1)]);
    }
}

#[test]
fn a_range_that_no_other_meets() {
    decides(NEVER, 0, &[(0, 500)], &[(0, 1, 1), (499, 1, 1), (500, 1, 0), (501, 0, 0)]);
    decides(NEVER, 0, &[(200, 500)], &[(199, 0, 0), (200, 1, 1), (499, 1, 1), (500, 1, 0)]);
    // Read half-open it has one tick.
    decides(NEVER, 0, &[(500, 501)], &[(499, 0, 0), (500, 1, 1), (501, 1, 0)]);
    decides(NEVER, 0, &[(0, 1)], &[(0, 1, 1), (1, 1, 0)]);
    // What 32 bits would cut.
    decides(NEVER, 0, &[(0, 500)], &[((1 << 32) + 3, 0, 0), ((1 << 32) + 500, 0, 0)]);
}

#[test]
fn no_end_is_no_end_by_either_reading() {
    let late = [TOP - 1, TOP, TOP + 1, 5_000_000_000, 1_000_000_000_000];
    decides(NEVER, 0, &[(0, UNBOUNDED)], &late.map(|t| (t, 1, 1)));
    let from = (UNBOUNDED - 1, UNBOUNDED);
    decides(NEVER, 0, &[from], &[(TOP - 2, 0, 0), (TOP - 1, 1, 1), (TOP, 1, 1), (TOP + 1, 1, 1)]);
    // One below it is an end like any other.
    let ticks = [(TOP - 2, 1, 1), (TOP - 1, 1, 2), (TOP, 2, 2), (TOP + 1, 2, 2)];
    decides(NEVER, 0, &[(0, UNBOUNDED - 1), from], &ticks);
}

#[test]
fn order_1_searches_with_the_whole_advance() {
    decides(500, 1, &MEETING, &[(499, 1, 1), (500, 1, 2)]);
    decides(500, 1, &[(0, 500)], &[(499, 1, 1), (500, 1, 0)]);
    decides(500, 1, &[(500, 501)], &[(499, 0, 0), (500, 1, 1)]);
    decides(500, 1, &[(0, 501)], &[(499, 1, 1), (500, 1, 1)]);
    decides(500, 1, &[(500, UNBOUNDED)], &[(499, 0, 0), (500, 1, 1)]);
}

#[test]
fn order_0_searches_with_no_time_elapsed() {
    decides(500, 0, &MEETING, &[(499, 1, 1), (500, 1, 1)]);
    decides(500, 0, &[(0, 1)], &[(500, 1, 1)]);
    decides(500, 0, &[(1, 500)], &[(499, 1, 1), (500, 0, 0)]);
}

#[test]
fn a_stray_on_the_tick_leaves_the_stay() {
    // In a half-open model the cue at 5 is a stray: the stay of 8 goes on, and ends with its own next phase.
    for (reading, standing, next_due) in [(Inclusive, (1, 5), u64::MAX), (HalfOpen, (0, 0), 8)] {
        for ancestors in ANCESTORS {
            let file = cue_in_ranges(ancestors, 0, 8, &[(2, 5)]).read_as(reading).file();
            let mut run = started(&file);
            common::advance(&file, &mut run, 5, &bag(&[(0, CUE)]), &mut []);
            assert_eq!(common::standing(&file, &run), (6, vec![standing]));
            assert_eq!(read(&file, &run, 0).next_due, next_due);
        }
    }
}

/// Two in one nest hear the same cue, each at another elapsed time: one on the tick of its range's end, one
/// before it.
#[test]
fn each_atomic_by_its_own_elapsed_time() {
    let mut model = Builder::new();
    let around = model.coupled_chain(0, 3);
    let phases = [phase(3, 1, &[]), phase(NEVER, 1, &[]), phase(NEVER, 2, &[])];
    let late = model.atomic_from(around, 0, 0, &phases);
    let early = model.atomic_from(around, 1, 0, &phases);
    for inside in 1..=3 {
        model.couple(inside - 1, 0, inside, 0);
    }
    for atomic in [late, early] {
        model.couple(around, 0, atomic, 0);
        model.rule(Rule { low_elapsed: 1, high_elapsed: 7, ..rule(atomic, 1, CUE, 2) });
    }
    for (reading, reached) in [(Inclusive, [(2, 7), (2, 7)]), (HalfOpen, [(2, 7), (1, 0)])] {
        let outcome = run(&model.clone().read_as(reading), 7, &bag(&[(0, CUE)]));
        assert_eq!(outcome.atomics, reached, "{reading:?}");
    }
}

#[test]
fn flattening_copies_the_section() {
    for ancestors in ANCESTORS {
        let model = cue_in_ranges(ancestors, 0, 500, &MEETING);
        let four = flat(&model.file());
        let five = flat(&model.clone().read_as(HalfOpen).file());
        assert_eq!(five, [&four[..], &[1, 0, 2]].concat());
        assert_eq!(decode(&four).unwrap().ranges, Inclusive);
        assert_eq!(decode(&five).unwrap().ranges, HalfOpen);
        assert_eq!(flat(&five), five);
    }
}

#[test]
fn what_the_searches_met_is_told() {
    let ends = |order: u8, advance: u32, ranges: &[(u32, u32)], reading, t| {
        let model = cue_in_ranges(4, order, advance, ranges).read_as(reading);
        run(&model, t, &bag(&[(0, CUE)])).observed.range_ends
    };
    let met = ends(0, NEVER, &MEETING, Inclusive, 500);
    assert_eq!((met.high_end_decided, met.high_end_left_to_another), ([1, 0, 0], [0; 3]));
    let met = ends(0, NEVER, &MEETING, HalfOpen, 500);
    assert_eq!((met.high_end_decided, met.high_end_left_to_another), ([0; 3], [1, 0, 0]));
    assert_eq!((met.low_end_decided, met.no_end_decided, met.last_tick_decided), (1, 1, 0));
    let met = ends(1, 500, &MEETING[..1], HalfOpen, 500);
    assert_eq!((met.high_end_left_to_none, met.no_end_decided), ([0, 0, 1], 0));
    let met = ends(0, 500, &[(0, 0)], Inclusive, 500);
    assert_eq!(met.high_end_decided, [0, 1, 0]);
    let met = ends(1, 500, &[(0, 500)], Inclusive, 500);
    assert_eq!(met.high_end_decided, [0, 0, 1]);
    let met = ends(0, NEVER, &MEETING, HalfOpen, 499);
    assert_eq!((met.last_tick_decided, met.high_end_left_to_another), (1, [0; 3]));
    for (t, at, past) in [(TOP - 1, 0, 0), (TOP, 1, 0), (TOP + 1, 0, 1)] {
        let met = ends(0, NEVER, &MEETING, HalfOpen, t);
        let found = (met.no_end_decided_at_its_number, met.no_end_decided_past_its_number);
        assert_eq!(found, (at, past), "{t}");
    }
}
