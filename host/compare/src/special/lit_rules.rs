//! Which rule is lit: a hold on each level of a nest with a relay beside it, and the table after each call.

use crate::call::Call;
use crate::comparison::{Compared, Comparison};
use crate::random::Random;
use reference::builder::bag;
use reference::examples::{last_rule_decides, relayed_hold};
use reference::examples::{AGAIN, AT_THE_END, CUE, FLASH, JAM, RELAY, RELAYED, STRAY};
use reference::limits::{ANCESTORS, NO_RULE, RULES};
use reference::lit_rules;
use reference::saved_run;

/// An advance call by its moment, the values given to the hold and to the relay, and a trace length; then
/// its number and the rules lit for the relay and the hold, none where the table stays.
struct Stop {
    t: u64,
    to_hold: &'static [u16],
    to_relay: &'static [u16],
    trace_length: usize,
    number: u64,
    lit: Option<[u16; 2]>,
}

struct Row {
    name: &'static str,
    orders: &'static [u8],
    stops: &'static [Stop],
}

const IDLE: Stop =
    Stop { t: 0, to_hold: &[], to_relay: &[], trace_length: 60, number: 0, lit: None };

/// The relay sends a cue by itself.
const BEGUN: Stop = Stop { t: 4, lit: Some([NO_RULE, 3]), ..IDLE };

/// What stands after a call at 6, in the hold that began at 4.
const fn at_6(to_hold: &'static [u16], to_relay: &'static [u16], lit: [u16; 2]) -> Stop {
    Stop { t: 6, to_hold, to_relay, lit: Some(lit), ..IDLE }
}

/// The same where the hold ends.
const fn at_9(to_hold: &'static [u16], lit: [u16; 2]) -> Stop {
    Stop { t: 9, to_hold, lit: Some(lit), ..IDLE }
}

const BOTH: &[u8] = &[0, 1];
const NONE: u16 = NO_RULE;

const ROWS: [Row; 17] = [
    Row { name: "lit by a rule", orders: BOTH, stops: &[BEGUN] },
    Row {
        name: "lit in an earlier instant only",
        orders: BOTH,
        stops: &[Stop { t: 20, lit: Some([NONE; 2]), ..IDLE }],
    },
    Row {
        name: "lit by the call before",
        orders: BOTH,
        stops: &[BEGUN, Stop { t: 5, ..IDLE }, at_9(&[], [NONE; 2])],
    },
    Row {
        name: "refused, nothing lit",
        orders: BOTH,
        stops: &[BEGUN, Stop { number: 11, lit: None, ..BEGUN }],
    },
    Row {
        name: "lit, then a stray in a later call",
        orders: BOTH,
        stops: &[BEGUN, at_6(&[STRAY], &[], [NONE; 2])],
    },
    Row {
        name: "lit, then an internal transition in the same instant",
        orders: BOTH,
        stops: &[BEGUN, at_6(&[FLASH], &[], [NONE, 5])],
    },
    Row {
        name: "lit, then a stray in the same instant",
        orders: BOTH,
        stops: &[BEGUN, at_6(&[AGAIN], &[STRAY], [1, NONE])],
    },
    Row {
        name: "stray, then lit in the same instant",
        orders: BOTH,
        stops: &[BEGUN, at_6(&[STRAY], &[CUE], [0, 4])],
    },
    Row {
        name: "lit by two rules in the same instant",
        orders: BOTH,
        stops: &[
            BEGUN,
            at_9(&[], [NONE; 2]),
            Stop { t: 10, to_hold: &[CUE], to_relay: &[CUE], lit: Some([0, 4]), ..IDLE },
        ],
    },
    Row {
        name: "lit, then a confluent transition without a rule in the same instant",
        orders: BOTH,
        stops: &[BEGUN, at_6(&[FLASH], &[CUE], [0, NONE])],
    },
    Row {
        name: "lit by a confluent transition of order 0",
        orders: &[0],
        stops: &[BEGUN, at_9(&[AT_THE_END], [NONE, 7])],
    },
    Row {
        name: "lit by a confluent transition of order 1",
        orders: &[1],
        stops: &[BEGUN, at_9(&[AT_THE_END], [NONE, 6])],
    },
    Row {
        name: "confluent transition that lights nothing",
        orders: BOTH,
        stops: &[BEGUN, at_9(&[STRAY], [NONE; 2])],
    },
    Row {
        name: "lit before the instant that passes the trace's end",
        orders: BOTH,
        stops: &[Stop { t: 20, trace_length: 14, number: 15, ..BEGUN }],
    },
    Row {
        name: "nothing done before the instant that passes the trace's end",
        orders: BOTH,
        stops: &[BEGUN, Stop { t: 9, to_hold: &[STRAY], trace_length: 14, number: 15, ..IDLE }],
    },
    Row {
        name: "lit before the endless instant",
        orders: BOTH,
        stops: &[Stop { t: 6, to_relay: &[JAM], number: 13, ..BEGUN }],
    },
    Row {
        name: "nothing done before the endless instant",
        orders: BOTH,
        stops: &[BEGUN, Stop { t: 6, to_hold: &[AGAIN], to_relay: &[JAM], number: 13, ..IDLE }],
    },
];

pub fn names() -> impl Iterator<Item = &'static str> {
    ROWS.iter().map(|row| row.name).chain(POSITIONS.map(|(name, _)| name))
}

/// Every row on every level, with a table just long enough and one of another length; the comparison runs
/// each model's flat form beside it.
pub fn on_each_level(comparison: &mut Comparison, random: &mut Random) -> Compared<()> {
    for row in &ROWS {
        for ancestors in 1..=ANCESTORS {
            for &order in row.orders {
                let longer = 5 + random.index(9);
                for table_length in [4, random.pick(&[0, 3, longer])] {
                    run_row(comparison, random, (ancestors, order), row.stops, table_length)
                        .map_err(|fault| {
                            format!("{}, {ancestors} ancestors, order {order}: {fault}", row.name)
                        })?;
                }
            }
        }
        comparison.counts.meet(row.name);
    }
    Ok(())
}

fn run_row(
    comparison: &mut Comparison,
    random: &mut Random,
    (ancestors, order): (usize, u8),
    stops: &[Stop],
    table_length: usize,
) -> Compared<()> {
    let model = relayed_hold(ancestors, order);
    let mut list = comparison.list(&model.file(), &random.bytes(saved_run::length(2)));
    list.call(&Call::Start)?;
    for stop in stops {
        let to_hold = stop.to_hold.iter().map(|&value| (0, value));
        let to_relay = stop.to_relay.iter().map(|&value| (1, value));
        let given: Vec<(u8, u16)> = to_hold.chain(to_relay).collect();
        let rules = random.bytes(table_length);
        let mut expected = rules.clone();
        if let (Some(lit), true) = (stop.lit, table_length >= lit_rules::length(2)) {
            for (rank, rule) in [(RELAY, lit[0]), (RELAYED, lit[1])] {
                expected[2 * rank..2 * rank + 2].copy_from_slice(&rule.to_le_bytes());
            }
        }
        let trace = random.bytes(stop.trace_length);
        let call = Call::Advance { t: stop.t, bag: bag(&given), trace, rules };
        let outcome = list.call(&call)?;
        if outcome.answer.number() != stop.number || outcome.rules != expected {
            let (answer, rules) = (outcome.answer, outcome.rules);
            return Err(format!("{answer:?} and {rules:?} instead of {expected:?} after {call}"));
        }
    }
    Ok(())
}

/// Rules of one atomic of which the last is lit.
const POSITIONS: [(&str, usize); 4] = [
    ("lit: position 255", 256),
    ("lit: position 256", 257),
    ("lit: position 511", 512),
    ("lit: the last position", RULES),
];

pub fn positions(comparison: &mut Comparison, random: &mut Random) -> Compared<()> {
    for (name, count) in POSITIONS {
        let mut list =
            comparison.list(&last_rule_decides(count).file(), &random.bytes(saved_run::length(1)));
        list.call(&Call::Start)?;
        let rules = random.bytes(2);
        let call = Call::Advance { t: 3, bag: bag(&[(0, 7)]), trace: Vec::new(), rules };
        let outcome = list.call(&call).map_err(|fault| format!("{name}, {fault}"))?;
        if outcome.rules != (count as u16 - 1).to_le_bytes() {
            return Err(format!("{name}, not {:?}", outcome.rules));
        }
        comparison.counts.meet(name);
    }
    Ok(())
}
