//! Stray cues: a hold on each level of a nest, and where it stands after each call.

use super::{expect, success};
use crate::arguments::rules_table;
use crate::call::{Answer, Call};
use crate::comparison::{Compared, Comparison};
use crate::random::Random;
use reference::builder::{bag, Builder};
use reference::examples::{hold, hold_among_strays, tick_among_strays};
use reference::examples::{AGAIN, AT_FOUR, AT_THE_END, CUE, EARLY, LATE, STRAY};
use reference::limits::{ANCESTORS, NEVER_DUE, UNBOUNDED};
use reference::saved_run;
use reference::Reading;

/// An advance call by its moment and the values given, then the hold's phase and last moment and the
/// model's next due moment.
type Stop = (u64, &'static [u16], [u64; 3]);

struct Row {
    name: &'static str,
    /// Makes the model from the hold's ancestors and its order.
    model: fn(usize, u8) -> Builder,
    orders: &'static [u8],
    stops: &'static [Stop],
}

const TOP: u64 = UNBOUNDED as u64;
const BEGUN: Stop = (10, &[CUE], [1, 10, 15]);

const ON_A_HOLD: Row = Row { name: "", model: hold, orders: &[0, 1], stops: &[] };

const ROWS: [Row; 16] = [
    Row {
        name: "stray in a hold",
        stops: &[BEGUN, (13, &[STRAY], [1, 10, 15]), (20, &[], [2, 15, 22])],
        ..ON_A_HOLD
    },
    Row {
        name: "two strays in a hold",
        stops: &[
            BEGUN,
            (12, &[STRAY], [1, 10, 15]),
            (14, &[STRAY, STRAY], [1, 10, 15]),
            (15, &[], [2, 15, 22]),
        ],
        ..ON_A_HOLD
    },
    Row {
        name: "stray beside a cue with a rule",
        stops: &[
            (10, &[STRAY, CUE], [1, 10, 15]),
            (12, &[STRAY], [1, 10, 15]),
            (13, &[AGAIN, STRAY], [1, 13, 18]),
        ],
        ..ON_A_HOLD
    },
    Row {
        name: "rule into the same phase",
        stops: &[
            BEGUN,
            (13, &[AGAIN], [1, 13, 18]),
            (14, &[STRAY], [1, 13, 18]),
            (17, &[AT_FOUR], [3, 17, NEVER_DUE]),
        ],
        ..ON_A_HOLD
    },
    Row {
        name: "rule for the elapsed time over a stray",
        stops: &[BEGUN, (12, &[STRAY], [1, 10, 15]), (14, &[AT_FOUR], [3, 14, NEVER_DUE])],
        ..ON_A_HOLD
    },
    Row {
        name: "confluent transition without a rule, either order",
        stops: &[BEGUN, (15, &[STRAY], [2, 15, 22]), (22, &[STRAY], [0, 22, NEVER_DUE])],
        ..ON_A_HOLD
    },
    Row {
        name: "confluent transition without a rule after a stray, either order",
        stops: &[BEGUN, (13, &[STRAY], [1, 10, 15]), (15, &[STRAY], [2, 15, 22])],
        ..ON_A_HOLD
    },
    Row {
        name: "order 0 after a stray: elapsed time 0",
        orders: &[0],
        stops: &[BEGUN, (13, &[STRAY], [1, 10, 15]), (15, &[AT_THE_END], [3, 15, NEVER_DUE])],
        ..ON_A_HOLD
    },
    Row {
        name: "order 1 after a stray: the whole advance",
        orders: &[1],
        stops: &[BEGUN, (13, &[STRAY], [1, 10, 15]), (15, &[AT_THE_END], [4, 15, NEVER_DUE])],
        ..ON_A_HOLD
    },
    Row {
        name: "order 0 after strays in one call: elapsed time 0",
        model: hold_among_strays,
        orders: &[0],
        stops: &[(1, &[CUE], [1, 1, 2]), (6, &[AT_THE_END], [3, 6, 8])],
    },
    Row {
        name: "order 1 after strays in one call: the whole advance",
        model: hold_among_strays,
        orders: &[1],
        stops: &[(1, &[CUE], [1, 1, 2]), (6, &[AT_THE_END], [4, 6, 8])],
    },
    Row {
        name: "elapsed time past 32 bits after strays",
        stops: &[
            (1, &[STRAY], [0, 0, NEVER_DUE]),
            (TOP - 2, &[STRAY], [0, 0, NEVER_DUE]),
            (TOP - 1, &[LATE], [0, 0, NEVER_DUE]),
            (TOP, &[LATE], [3, TOP, NEVER_DUE]),
        ],
        ..ON_A_HOLD
    },
    Row {
        name: "elapsed time that 32 bits would cut, after a stray",
        stops: &[(TOP + 1, &[STRAY], [0, 0, NEVER_DUE]), (TOP + 4, &[EARLY], [0, 0, NEVER_DUE])],
        ..ON_A_HOLD
    },
    Row {
        name: "confluent transition into the same phase without a rule",
        model: tick_among_strays,
        stops: &[
            (3, &[STRAY], [0, 0, 5]),
            (5, &[STRAY], [0, 5, 10]),
            (9, &[STRAY], [0, 5, 10]),
            (15, &[STRAY], [0, 15, 20]),
        ],
        ..ON_A_HOLD
    },
    Row {
        name: "strays in one call, order 0",
        model: hold_among_strays,
        orders: &[0],
        stops: &[
            (1, &[CUE], [1, 1, 2]),
            (30, &[], [0, 13, 32]),
            (31, &[CUE], [1, 31, 32]),
            (35, &[AGAIN], [1, 35, 36]),
            (40, &[AT_THE_END], [3, 40, 42]),
        ],
    },
    Row {
        name: "strays in one call, order 1",
        model: hold_among_strays,
        orders: &[1],
        stops: &[
            (1, &[CUE], [1, 1, 2]),
            (30, &[], [0, 13, 32]),
            (31, &[CUE], [1, 31, 32]),
            (35, &[AT_FOUR], [3, 35, 36]),
            (36, &[CUE], [3, 35, 38]),
        ],
    },
];

pub fn names() -> impl Iterator<Item = &'static str> {
    ROWS.iter().map(|row| row.name).chain([STEPS_OF_STRAYS])
}

/// Every row on every level; the comparison runs each model's flat form beside it.
pub fn on_each_level(comparison: &mut Comparison, random: &mut Random) -> Compared<()> {
    for row in &ROWS {
        for ancestors in 1..=ANCESTORS {
            for &order in row.orders {
                let model = (row.model)(ancestors, order);
                run_row(comparison, random, &model, row.stops).map_err(|fault| {
                    format!("{}, {ancestors} ancestors, order {order}: {fault}", row.name)
                })?;
            }
        }
        comparison.counts.meet(row.name);
    }
    Ok(())
}

fn run_row(
    comparison: &mut Comparison,
    random: &mut Random,
    model: &Builder,
    stops: &[Stop],
) -> Compared<()> {
    let atomics = model.model().atomics().len();
    let mut list = comparison.list(&model.file(), &random.bytes(saved_run::length(atomics)));
    list.call(&Call::Start)?;
    for &(t, values, [phase, last, next_due]) in stops {
        let given: Vec<(u8, u16)> = values.iter().map(|&value| (0, value)).collect();
        let (trace, rules) = (random.bytes(60), rules_table(random, atomics));
        list.call(&Call::Advance { t, bag: bag(&given), trace, rules })?;
        let answer = list.call(&Call::Read { position: 0 })?.answer;
        let expected = Reading { number: 0, phase, last, next_due };
        if answer != Answer::Reading(expected) {
            return Err(format!("{answer:?} instead of {expected:?} after {t}"));
        }
    }
    Ok(())
}

const STEPS_OF_STRAYS: &str = "step in which every bag is a stray";

/// A bag for which no rule holds is a step of its own, and changes nothing but the open moment.
pub fn steps_of_strays_alone(comparison: &mut Comparison, random: &mut Random) -> Compared<()> {
    for ancestors in 1..=ANCESTORS {
        let model = hold(ancestors, random.below(2) as u8);
        let count = random.between(1, 16) as usize;
        let given = bag(&vec![(0, STRAY); count]);
        let run = expect(comparison, random, &model, (6, given, 0), success(1, 1, 0))?;
        let entry = &run[saved_run::HEAD_BYTES..saved_run::length(1)];
        if entry != [0; saved_run::ATOMIC_BYTES] {
            return Err(format!("{ancestors} ancestors: the entry is {entry:?} after strays"));
        }
    }
    comparison.counts.meet(STEPS_OF_STRAYS);
    Ok(())
}
