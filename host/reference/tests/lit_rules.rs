//! The table of rules that decided: its bytes, when it stays as it was, and what it tells of the worked
//! table's rows. Every call is made on the nest, on its flat form and on the flat machine.

mod common;

use common::{advance_lighting, started, JUNK};
use reference::builder::{bag, Builder};
use reference::examples::{cue_source, endless, last_rule_decides, relayed_hold};
use reference::examples::{AGAIN, AT_THE_END, CUE, FLASH, JAM, STRAY};
use reference::lit_rules::LastInstant;
use reference::Advanced;

const NO_RULE: u16 = 65_535;

/// A table of two atomics as it was lent.
const AS_LENT: [u16; 2] = [u16::from_le_bytes([JUNK, JUNK]); 2];

/// Starts a model of two atomics, advances it, and answers the number and the table.
fn table_after(model: &Builder, t: u64, bag: &[u8], trace_length: usize) -> (u64, [u16; 2]) {
    let file = model.file();
    let mut rules = [JUNK; 4];
    let mut trace = vec![JUNK; trace_length];
    let (answer, _) = advance_lighting(&file, &mut started(&file), t, bag, &mut trace, &mut rules);
    (answer.number, [0, 2].map(|at| u16::from_le_bytes([rules[at], rules[at + 1]])))
}

#[test]
fn rows_of_the_worked_table() {
    let cues = cue_source(0, 1);
    assert_eq!(table_after(&cues, 30, &[], 100), (0, [NO_RULE, 1]), "[A]");
    assert_eq!(table_after(&cue_source(1, 1), 30, &[], 100), (0, [NO_RULE, 1]), "[B]");
    // At 20 the second one has no rule for 7 in phase 2, and none for 8 in phase 0.
    assert_eq!(table_after(&cue_source(1, 1), 20, &[], 100), (0, [NO_RULE; 2]), "[B] at 20");
    assert_eq!(table_after(&cues, 30, &[], 14), (15, [NO_RULE, 1]), "[C]");
    assert_eq!(table_after(&cues, 30, &[], 15), (15, [NO_RULE, 1]), "[D]");
    assert_eq!(table_after(&cues, 0, &bag(&[(0, 5)]), 100), (0, [NO_RULE; 2]), "[E]");
    assert_eq!(table_after(&cue_source(0, 2), 30, &[], 100), (0, [NO_RULE, 1]), "[F]");
    assert_eq!(table_after(&endless(), 0, &[], 100), (13, AS_LENT), "[G]");
    assert_eq!(table_after(&cues, 1_000_000_000_001, &[], 100), (11, AS_LENT), "[H]");
    assert_eq!(table_after(&cues, 9, &[], 100), (0, AS_LENT), "nothing is due");
}

#[test]
fn tables_of_every_length() {
    let file = cue_source(0, 1).file();
    for length in 0..8 {
        let mut rules = vec![JUNK; length];
        let run = &mut started(&file);
        let (answer, _) = advance_lighting(&file, run, 30, &[], &mut [0; 30], &mut rules);
        assert_eq!(answer, Advanced { number: 0, instants: 3, steps: 6, trace_bytes: 30 });
        let mut expected = vec![JUNK; length];
        if length >= 4 {
            expected[..4].copy_from_slice(&[255, 255, 1, 0]);
        }
        assert_eq!(rules, expected);
    }
}

#[test]
fn positions_of_two_bytes() {
    for count in [1, 256, 257, 1_024] {
        let file = last_rule_decides(count).file();
        let mut rules = [JUNK; 2];
        let run = &mut started(&file);
        advance_lighting(&file, run, 3, &bag(&[(0, 7)]), &mut [], &mut rules);
        assert_eq!(u16::from_le_bytes(rules), count as u16 - 1);
    }
}

/// Advances the relayed hold to 4, where the relay tells it of the first cue, and then with values given
/// to the two of them.
fn last_instant(order: u8, t: u64, to_hold: &[u16], to_relay: &[u16]) -> LastInstant {
    let file = relayed_hold(4, order).file();
    let mut run = started(&file);
    common::advance(&file, &mut run, 4, &[], &mut []);
    let given: Vec<(u8, u16)> = to_hold
        .iter()
        .map(|&value| (0, value))
        .chain(to_relay.iter().map(|&value| (1, value)))
        .collect();
    let mut trace = [0; 60];
    common::advance_observed(&file, &mut run, t, &bag(&given), &mut trace).1.last_instant
}

#[test]
fn what_the_last_instant_had_is_observed() {
    let stray_last = last_instant(0, 6, &[AGAIN], &[STRAY]);
    assert_eq!((stray_last.several_external_parts, stray_last.stray_after_rule), (1, 1));
    assert_eq!((stray_last.external_without_rule, stray_last.internal_after_rule), (1, 1));
    assert_eq!((stray_last.lit, stray_last.highest_position), ([1, 0, 0, 0, 0, 0, 0, 0], 1));
    let rule_last = last_instant(0, 6, &[STRAY], &[CUE]);
    assert_eq!((rule_last.several_external_parts, rule_last.rule_after_stray), (1, 1));
    assert_eq!((rule_last.lit, rule_last.highest_position), ([1, 0, 0, 1, 0, 0, 0, 0], 4));
    let flash = last_instant(0, 6, &[FLASH], &[]);
    assert_eq!((flash.internal_after_rule, flash.no_external_part), (1, 1));
    assert_eq!(flash.several_external_parts, 0);
    for order in [0, 1] {
        let mut confluent = [[0; 2]; 2];
        confluent[usize::from(order)] = [1, 0];
        assert_eq!(last_instant(order, 9, &[AT_THE_END], &[]).confluent, confluent);
        confluent[usize::from(order)] = [0, 1];
        assert_eq!(last_instant(order, 9, &[STRAY], &[]).confluent, confluent);
    }
}

#[test]
fn what_became_of_other_instants_is_observed() {
    let file = relayed_hold(2, 0).file();
    let on_start = |t: u64, bag: &[u8], trace_length: usize| {
        let trace = &mut vec![0; trace_length];
        let (answer, observed) =
            common::advance_observed(&file, &mut started(&file), t, bag, trace);
        let LastInstant { rule_of_earlier_instant, dropped, .. } = observed.last_instant;
        (answer.number, answer.instants, rule_of_earlier_instant, dropped)
    };
    assert_eq!(on_start(20, &[], 60), (0, 2, 1, 0));
    assert_eq!(on_start(20, &[], 14), (15, 1, 0, 1));
    assert_eq!(on_start(6, &bag(&[(1, JAM)]), 60), (13, 1, 0, 2));
}
