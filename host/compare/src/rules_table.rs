//! Which lengths of the lent table of rules the calls met, why a table stayed as it was, and what the last
//! instant of a call lit where the table shows it.

use crate::call::{Answer, Call};
use crate::counts::Counts;
use reference::limits::{ANCESTORS, COMPONENTS};
use reference::lit_rules::{self, LastInstant};
use reference::model::Model;

/// The most atomics of a model: every component but the root.
const ATOMICS: usize = COMPONENTS - 1;

const LENGTHS: [&str; 4] = [
    "rules: no table, and an instant done",
    "rules: table one byte too short, and an instant done",
    "rules: table exactly long enough, and an instant done",
    "rules: table longer than its entries, and an instant done",
];

/// A table that would have had room stays as it was: by the number of the refusal.
const REFUSED: [&str; 13] = [
    "rules: table stays, refused by 1",
    "rules: table stays, refused by 2",
    "rules: table stays, refused by 3",
    "rules: table stays, refused by 4",
    "rules: table stays, refused by 5",
    "rules: table stays, refused by 6",
    "rules: table stays, refused by 7",
    "rules: table stays, refused by 8",
    "rules: table stays, refused by 9",
    "rules: table stays, refused by 10",
    "rules: table stays, refused by 11",
    "rules: table stays, refused by 12",
    "rules: table stays, refused by 20",
];

/// The same without a refusal of the call, and tables that were written though an instant was left undone,
/// by 13 or by 15: 14 is retired.
const INSTANTS: [&str; 5] = [
    "rules: table stays, success without an instant",
    "rules: table stays, 13 without an instant",
    "rules: table stays, 15 without an instant",
    "rules: table written, 13 after an instant",
    "rules: table written, 15 after an instant",
];

/// The boundaries that `notice` looks for.
pub fn names() -> impl Iterator<Item = &'static str> {
    LENGTHS.into_iter().chain(REFUSED).chain(INSTANTS)
}

/// Lit in the last instant of a call, by the atomic's ancestors.
const LIT: [&str; ANCESTORS] = [
    "lit last: with 1 ancestor",
    "lit last: with 2 ancestors",
    "lit last: with 3 ancestors",
    "lit last: with 4 ancestors",
    "lit last: with 5 ancestors",
    "lit last: with 6 ancestors",
    "lit last: with 7 ancestors",
    "lit last: with 8 ancestors",
];

/// What atomics met in the last instant of a call whose table tells it, by name.
pub fn kinds(last: &LastInstant) -> impl Iterator<Item = (&'static str, u64)> {
    let [order_0, order_1] = last.confluent;
    let kinds = [
        ("lit last: no external part", last.no_external_part),
        ("lit last: external without a rule", last.external_without_rule),
        ("lit last: several external parts", last.several_external_parts),
        ("lit last: without a rule after one with a rule", last.stray_after_rule),
        ("lit last: with a rule after one without", last.rule_after_stray),
        ("lit last: internal after a rule", last.internal_after_rule),
        ("lit last: none, but in an earlier instant", last.rule_of_earlier_instant),
        ("lit last: confluent, order 0, with a rule", order_0[0]),
        ("lit last: confluent, order 0, without a rule", order_0[1]),
        ("lit last: confluent, order 1, with a rule", order_1[0]),
        ("lit last: confluent, order 1, without a rule", order_1[1]),
        ("lit last: position above 255", u64::from(last.highest_position > 255)),
        ("lit last: another entry in the instant left undone", last.dropped),
    ];
    kinds.into_iter().chain(LIT.into_iter().zip(last.lit))
}

/// Counts what an advance call met.
pub fn notice(
    counts: &mut Counts,
    model: Option<&Model>,
    call: &Call,
    answer: &Answer,
    last: &LastInstant,
) {
    let (Call::Advance { rules, .. }, Answer::Advanced(answer)) = (call, answer) else {
        return;
    };
    let length = rules.len();
    // A refused file has no atomics that count: its table has to be long enough for any.
    let needed = lit_rules::length(model.map_or(ATOMICS, |model| model.atomics().len()));
    if needed == 0 {
        return;
    }
    let number = answer.number;
    let is_written = answer.instants > 0;
    if is_written {
        let by_length = [length == 0, length + 1 == needed, length == needed, length > needed];
        let met = by_length.into_iter().zip(LENGTHS).filter(|(is_so, _)| *is_so);
        met.for_each(|(_, name)| counts.meet(name));
    }
    if length < needed {
        return;
    }
    match (number, is_written) {
        (1..=12, _) => counts.meet(REFUSED[number as usize - 1]),
        (20, _) => counts.meet(REFUSED[12]),
        (0, false) => counts.meet(INSTANTS[0]),
        (13, false) => counts.meet(INSTANTS[1]),
        (15, false) => counts.meet(INSTANTS[2]),
        (13, true) => counts.meet(INSTANTS[3]),
        (15, true) => counts.meet(INSTANTS[4]),
        _ => {}
    }
    if is_written {
        counts.kinds(kinds(last));
    }
}
