//! Elapsed ranges on the ticks of their ends, under either reading: an atomic on each level of a nest that hears
//! a cue, and where it stands then.

use crate::call::{Answer, Call};
use crate::calls_on_model::flatten_into;
use crate::comparison::{Compared, Comparison, Outcome};
use crate::random::Random;
use reference::builder::{bag, Builder, NEVER};
use reference::examples::{cue_in_ranges, CUE};
use reference::feed::{encode, FeedBag};
use reference::flatten::flat_form;
use reference::limits::{ANCESTORS, HIGHEST_TIME, NO_RULE, UNBOUNDED};
use reference::ranges::Ranges::{self, HalfOpen, Inclusive};
use reference::records::Message;
use reference::saved_run;

struct Row {
    name: &'static str,
    reading: Ranges,
    /// How long the phase lasts in which the cue comes, and the orders from which each level gets one.
    advance: u32,
    orders: &'static [u8],
    ranges: &'static [(u32, u32)],
    /// The moments of a cue, each after a start of its own, and which range decides there: 1 or 2, or 0 for none.
    cues: &'static [(u64, u8)],
}

const TOP: u64 = UNBOUNDED as u64;
const NO_END: u32 = UNBOUNDED;
const MEETING: &[(u32, u32)] = &[(0, 500), (500, NO_END)];
const LATER_FIRST: &[(u32, u32)] = &[(500, NO_END), (0, 500)];
const AROUND_2_TO_32: &[(u32, u32)] = &[(0, UNBOUNDED - 1), (UNBOUNDED - 1, NO_END)];

/// The phase lasts, so that the transition is external whatever the order.
const fn waiting(
    name: &'static str,
    reading: Ranges,
    ranges: &'static [(u32, u32)],
    cues: &'static [(u64, u8)],
) -> Row {
    Row { name, reading, advance: NEVER, orders: &[0, 1], ranges, cues }
}

/// The phase ends at 500, so that the transition is confluent there.
const fn ending(
    name: &'static str,
    reading: Ranges,
    orders: &'static [u8],
    ranges: &'static [(u32, u32)],
    cues: &'static [(u64, u8)],
) -> Row {
    Row { name, reading, advance: 500, orders, ranges, cues }
}

const ROWS: [Row; 26] = [
    waiting("inclusive ranges meet", Inclusive, MEETING, &[(499, 1), (500, 1), (501, 2)]),
    waiting("half-open ranges meet", HalfOpen, MEETING, &[(499, 1), (500, 2), (501, 2)]),
    waiting("inclusive, the later one first", Inclusive, LATER_FIRST, &[(499, 2), (500, 1)]),
    waiting("half-open, the later one first", HalfOpen, LATER_FIRST, &[(499, 2), (500, 1)]),
    waiting("inclusive range alone", Inclusive, &[(0, 500)], &[(499, 1), (500, 1), (501, 0)]),
    waiting("half-open range alone", HalfOpen, &[(0, 500)], &[(499, 1), (500, 0), (501, 0)]),
    waiting("inclusive, one tick", Inclusive, &[(500, 500)], &[(499, 0), (500, 1), (501, 0)]),
    waiting("half-open, one tick", HalfOpen, &[(500, 501)], &[(499, 0), (500, 1), (501, 0)]),
    waiting("inclusive range", Inclusive, &[(200, 500)], &[(199, 0), (200, 1), (500, 1), (501, 0)]),
    waiting("half-open range", HalfOpen, &[(200, 500)], &[(199, 0), (200, 1), (499, 1), (500, 0)]),
    waiting("inclusive, no time", Inclusive, &[(0, 0)], &[(0, 1), (1, 0)]),
    waiting("half-open, no time", HalfOpen, &[(0, 1)], &[(0, 1), (1, 0)]),
    waiting(
        "inclusive, no end",
        Inclusive,
        &[(0, NO_END)],
        &[(0, 1), (TOP - 1, 1), (TOP, 1), (TOP + 1, 1), (HIGHEST_TIME, 1)],
    ),
    waiting(
        "half-open, no end",
        HalfOpen,
        &[(0, NO_END)],
        &[(0, 1), (TOP - 1, 1), (TOP, 1), (TOP + 1, 1), (HIGHEST_TIME, 1)],
    ),
    waiting(
        "inclusive, from 4,294,967,295",
        Inclusive,
        &[(UNBOUNDED, NO_END)],
        &[(TOP - 1, 0), (TOP, 1), (TOP + 1, 1)],
    ),
    waiting(
        "inclusive, to 4,294,967,294",
        Inclusive,
        AROUND_2_TO_32,
        &[(TOP - 2, 1), (TOP - 1, 1), (TOP, 2), (TOP + 1, 2)],
    ),
    waiting(
        "half-open, to 4,294,967,294",
        HalfOpen,
        AROUND_2_TO_32,
        &[(TOP - 2, 1), (TOP - 1, 2), (TOP, 2), (TOP + 1, 2)],
    ),
    waiting(
        "half-open, elapsed time that 32 bits would cut",
        HalfOpen,
        &[(0, 500)],
        &[(TOP + 4, 0), (TOP + 500, 0), (TOP + 501, 0)],
    ),
    ending("inclusive, order 1 where they meet", Inclusive, &[1], MEETING, &[(499, 1), (500, 1)]),
    ending("half-open, order 1 where they meet", HalfOpen, &[1], MEETING, &[(499, 1), (500, 2)]),
    ending("inclusive, order 1 at the end", Inclusive, &[1], &[(0, 500)], &[(499, 1), (500, 1)]),
    ending("half-open, order 1 at the end", HalfOpen, &[1], &[(0, 500)], &[(499, 1), (500, 0)]),
    ending("half-open, order 1 in one tick", HalfOpen, &[1], &[(500, 501)], &[(499, 0), (500, 1)]),
    ending("inclusive, order 0: no time", Inclusive, &[0], &[(0, 0), (1, NO_END)], &[(500, 1)]),
    ending("half-open, order 0: no time", HalfOpen, &[0], &[(0, 1), (1, NO_END)], &[(500, 1)]),
    ending("half-open, order 0 where they meet", HalfOpen, &[0], MEETING, &[(499, 1), (500, 1)]),
];

pub fn names() -> impl Iterator<Item = &'static str> {
    ROWS.iter().map(|row| row.name)
}

/// Every row on every level, by advances, and on one of them by feeds; the comparison runs each model's flat form
/// beside it.
pub fn on_each_level(comparison: &mut Comparison, random: &mut Random) -> Compared<()> {
    for row in &ROWS {
        let fed_level = 1 + random.index(ANCESTORS);
        for ancestors in 1..=ANCESTORS {
            let order = random.pick(row.orders);
            let model = cue_in_ranges(ancestors, order, row.advance, row.ranges);
            let model = model.read_as(row.reading);
            let by_feed = ancestors == fed_level;
            run_row(comparison, random, &model, order, by_feed, row).map_err(|fault| {
                format!("{}, {ancestors} ancestors, order {order}: {fault}", row.name)
            })?;
        }
        comparison.counts.meet(row.name);
    }
    Ok(())
}

fn run_row(
    comparison: &mut Comparison,
    random: &mut Random,
    model: &Builder,
    order: u8,
    by_feed: bool,
    row: &Row,
) -> Compared<()> {
    let file = model.file();
    for &(t, range) in row.cues {
        let (entry, rule) = expected(row, order, t, range);
        let fed = by_feed.then(|| feed(random, t));
        for call in [advance(random, t)].into_iter().chain(fed) {
            let mut list = comparison.list(&file, &random.bytes(saved_run::length(1)));
            list.call(&Call::Start)?;
            let Outcome { answer, rules, .. } = list.call(&call)?;
            let stands = &list.run()[saved_run::HEAD_BYTES..];
            if answer.number() != 0 || stands != entry {
                let found = format!("{answer:?} and {stands:?}");
                return Err(format!("{found} instead of {entry:?} after {call}"));
            }
            if matches!(answer, Answer::Advanced(_)) && rules != rule.to_le_bytes() {
                return Err(format!("{rules:?} is lit instead of {rule} after {call}"));
            }
        }
    }
    let length = flat_form(&model.model()).encode().len();
    // Just enough, and short by no more than a fifth section has.
    let lent = length - random.index(4);
    flatten_into(comparison, random, &file, length, length)?;
    flatten_into(comparison, random, &file, length, lent)
}

/// The atomic's entry in the run after a cue at t for which this range decides, and the rule lit.
fn expected(row: &Row, order: u8, t: u64, range: u8) -> (Vec<u8>, u16) {
    let is_due = row.advance != NEVER && t == u64::from(row.advance);
    let phase = if is_due { 3 + range } else { range };
    let last = if is_due || range > 0 { t } else { 0 };
    // A range has a rule in phase 0 and, after that, one in phase 3, where order 0 searches.
    let rule = match range {
        0 => NO_RULE,
        range => 2 * u16::from(range - 1) + u16::from(is_due && order == 0),
    };
    ([&[phase][..], &last.to_le_bytes()].concat(), rule)
}

fn advance(random: &mut Random, t: u64) -> Call {
    let (trace, rules) = (random.bytes(3), random.bytes(2));
    Call::Advance { t, bag: bag(&[(0, CUE)]), trace, rules }
}

/// The same as a feed of one bag.
fn feed(random: &mut Random, t: u64) -> Call {
    let messages = vec![Message { port: 0, value: CUE }];
    let feed = encode(&[FeedBag { moment: t, messages }]);
    Call::Feed { end: t, feed, trace: random.bytes(3) }
}
