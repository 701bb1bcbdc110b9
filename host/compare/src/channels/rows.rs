//! Calls on channels of one small model, each with the outcome that it must have.

use super::arguments::laid_out;
use super::models::{
    bursts, standing, Standing, BURSTS, DOES_NOT_FIT, ONE_STEP_AT_5, ONE_STEP_THEN_BURSTS, QUIET,
    SHORT_BURST_FIRST, TICKS,
};
use super::promises::Fact;
use crate::call::OnChannels;
use crate::comparison::{CallList, Compared, Comparison};
use crate::random::Random;
use crate::runs::open_moment;
use reference::builder::bag;
use reference::examples::{CUE, JAM};
use reference::limits::HIGHEST_TIME;
use reference::Advanced;

/// Where a channel stands, its open moment, and its bag.
#[derive(Clone, Copy)]
pub struct Channel {
    pub phases: Standing,
    pub open: u64,
    pub bag: &'static [(u8, u16)],
}

pub const fn at_rest(phases: Standing) -> Channel {
    Channel { phases, open: 0, bag: &[] }
}

pub const fn given(phases: Standing, bag: &'static [(u8, u16)]) -> Channel {
    Channel { phases, open: 0, bag }
}

/// Open too late for every row.
pub const LATE: Channel = Channel { phases: QUIET, open: 200, bag: &[] };
pub const PORT_4: Channel = given(QUIET, &[(4, 0)]);

struct Row {
    name: &'static str,
    channels: &'static [Channel],
    t: u64,
    allowance: u64,
    /// Of each channel.
    trace_length: usize,
    /// Number, instants, steps and trace bytes, and the open moment.
    expected: &'static [[u64; 5]],
}

const fn row(
    name: &'static str,
    channels: &'static [Channel],
    (t, allowance, trace_length): (u64, u64, usize),
    expected: &'static [[u64; 5]],
) -> Row {
    Row { name, channels, t, allowance, trace_length, expected }
}

const TWO_BURSTS: [u64; 5] = [0, 2, 2_048, 30, 21];

const ROWS: [Row; 28] = [
    row("1 channel, nothing to do", &[at_rest(QUIET)], (9, 1_024, 0), &[[0, 0, 0, 0, 10]]),
    row("1,024 steps that just fit", &[at_rest(BURSTS)], (10, 1_024, 15), &[[0, 1, 1_024, 15, 11]]),
    row(
        "1,024 steps with 1,023 left",
        &[at_rest(ONE_STEP_THEN_BURSTS)],
        (10, 1_024, 15),
        &[[22, 1, 1, 0, 6]],
    ),
    row(
        "1,024 steps with just so many left",
        &[at_rest(ONE_STEP_THEN_BURSTS)],
        (10, 1_025, 15),
        &[[0, 2, 1_025, 15, 11]],
    ),
    row(
        "left over by a quiet channel",
        &[at_rest(QUIET), at_rest(BURSTS)],
        (20, 2_048, 30),
        &[[0, 0, 0, 0, 21], TWO_BURSTS],
    ),
    row(
        "left over by a channel that 10 refuses",
        &[at_rest(DOES_NOT_FIT), at_rest(BURSTS)],
        (20, 2_048, 30),
        &[[10, 0, 0, 0, 0], TWO_BURSTS],
    ),
    row(
        "left over by a channel that 11 refuses",
        &[LATE, at_rest(BURSTS)],
        (20, 2_048, 30),
        &[[11, 0, 0, 0, 200], TWO_BURSTS],
    ),
    row(
        "left over by a channel that 12 refuses",
        &[PORT_4, at_rest(BURSTS)],
        (20, 2_048, 30),
        &[[12, 0, 0, 0, 0], TWO_BURSTS],
    ),
    row(
        "left over by a channel that 13 ends",
        &[given(QUIET, &[(0, JAM)]), at_rest(BURSTS)],
        (20, 2_048, 30),
        &[[13, 0, 0, 0, 0], TWO_BURSTS],
    ),
    row(
        "left over by two channels",
        &[at_rest(QUIET), LATE, at_rest(BURSTS)],
        (30, 3_072, 45),
        &[[0, 0, 0, 0, 31], [11, 0, 0, 0, 200], [0, 3, 3_072, 45, 31]],
    ),
    row(
        "left over, and left over again",
        &[at_rest(QUIET), at_rest(SHORT_BURST_FIRST), at_rest(BURSTS)],
        (20, 3_072, 30),
        &[[0, 0, 0, 0, 21], [0, 2, 1_088, 30, 21], [22, 1, 1_024, 15, 11]],
    ),
    row(
        "an instant left undone is not spent",
        &[at_rest(ONE_STEP_THEN_BURSTS), at_rest(SHORT_BURST_FIRST)],
        (20, 2_048, 30),
        &[[22, 1, 1, 0, 6], [0, 2, 1_088, 30, 21]],
    ),
    row(
        "a remainder of 1 that is nobody's",
        &[at_rest(ONE_STEP_THEN_BURSTS), at_rest(QUIET)],
        (10, 2_049, 15),
        &[[22, 1, 1, 0, 6], [0, 0, 0, 0, 11]],
    ),
    row(
        "a remainder of 2 that is nobody's",
        &[at_rest(ONE_STEP_THEN_BURSTS), at_rest(BURSTS), at_rest(ONE_STEP_THEN_BURSTS)],
        (10, 3_074, 15),
        &[[22, 1, 1, 0, 6], [0, 1, 1_024, 15, 11], [0, 2, 1_025, 15, 11]],
    ),
    row(
        "a remainder that would be just enough for the last",
        &[at_rest(BURSTS), at_rest(ONE_STEP_THEN_BURSTS)],
        (10, 2_049, 15),
        &[[0, 1, 1_024, 15, 11], [22, 1, 1, 0, 6]],
    ),
    row(
        "two busy channels",
        &[at_rest(BURSTS), at_rest(BURSTS)],
        (20, 2_048, 30),
        &[[22, 1, 1_024, 15, 11], [22, 1, 1_024, 15, 11]],
    ),
    row(
        "a busy channel before a quiet one",
        &[at_rest(BURSTS), given(QUIET, &[(0, CUE)])],
        (20, 2_048, 30),
        &[[22, 1, 1_024, 15, 11], [0, 1, 1, 0, 21]],
    ),
    row(
        "13 before 22",
        &[given(ONE_STEP_AT_5, &[(0, JAM)]), at_rest(QUIET)],
        (10, 2_048, 15),
        &[[13, 1, 1, 0, 6], [0, 0, 0, 0, 11]],
    ),
    row("15 before 22", &[at_rest(ONE_STEP_THEN_BURSTS)], (10, 1_024, 14), &[[15, 1, 1, 0, 6]]),
    row("15 where it would fit", &[at_rest(BURSTS)], (10, 1_024, 14), &[[15, 0, 0, 0, 0]]),
    row(
        "no step left for the bag",
        &[given(BURSTS, &[(3, 7)])],
        (12, 1_024, 15),
        &[[22, 1, 1_024, 15, 11]],
    ),
    row(
        "no step left, and nothing to do",
        &[at_rest(BURSTS)],
        (12, 1_024, 15),
        &[[0, 1, 1_024, 15, 13]],
    ),
    row(
        "one step left for the bag",
        &[given(BURSTS, &[(3, 7)])],
        (12, 1_025, 15),
        &[[0, 2, 1_025, 15, 13]],
    ),
    row(
        "a bag where something is due, in 1,024 steps",
        &[given(BURSTS, &[(3, 7)]), given(BURSTS, &[(0, CUE)])],
        (10, 2_048, 15),
        &[[0, 1, 1_024, 15, 11], [0, 1, 1_024, 15, 11]],
    ),
    row(
        "traces without a byte",
        &[at_rest(ONE_STEP_AT_5), at_rest(TICKS), at_rest(QUIET)],
        (5, 3_072, 0),
        &[[0, 1, 1, 0, 6], [15, 0, 0, 0, 0], [0, 0, 0, 0, 6]],
    ),
    row(
        "each channel in its own part of the traces",
        &[at_rest(TICKS), given(TICKS, &[(0, 5)]), at_rest(ONE_STEP_AT_5), at_rest(TICKS)],
        (3, 4_096, 45),
        &[[0, 3, 3, 45, 4], [0, 3, 3, 45, 4], [0, 0, 0, 0, 4], [0, 3, 3, 45, 4]],
    ),
    row(
        "15 in the last part of the traces, by one byte",
        &[given(QUIET, &[(0, CUE)]), at_rest(TICKS)],
        (3, 2_048, 44),
        &[[0, 1, 1, 0, 4], [15, 2, 2, 30, 3]],
    ),
    row(
        "above the highest moment",
        &[at_rest(QUIET), at_rest(DOES_NOT_FIT), PORT_4],
        (HIGHEST_TIME + 1, 3_072, 15),
        &[[11, 0, 0, 0, 0], [10, 0, 0, 0, 0], [11, 0, 0, 0, 0]],
    ),
];

pub fn names() -> impl Iterator<Item = &'static str> {
    ROWS.iter().map(|row| row.name)
}

/// A list of calls on channels that stand so, and the call on them. Both buffers have so many bytes more than a
/// whole number of parts.
pub fn planned<'c>(
    comparison: &'c mut Comparison,
    random: &mut Random,
    channels: &[Channel],
    (t, allowance, trace_length): (u64, u64, usize),
    beyond: usize,
) -> (CallList<'c>, OnChannels) {
    let mut runs = Vec::new();
    let slack = random.index(3);
    for channel in channels {
        runs.extend(standing(channel.open, channel.phases).encode());
        runs.extend(random.bytes(slack));
    }
    runs.extend(random.bytes(beyond));
    let bags: Vec<Vec<u8>> = channels.iter().map(|channel| bag(channel.bag)).collect();
    let (bags, places) = laid_out(random, &bags);
    let traces = random.bytes(trace_length * channels.len() + beyond);
    let count = channels.len() as u64;
    let list = comparison.list(&bursts().file(), &runs);
    (list, OnChannels { count, t, allowance, bags, places, traces })
}

/// Makes a planned call and tests what becomes of each channel.
pub fn expect(list: &mut CallList, call: OnChannels, expected: &[[u64; 5]]) -> Compared<Fact> {
    let fact = Fact::of(list, call)?;
    for (channel, &[number, instants, steps, trace_bytes, open]) in expected.iter().enumerate() {
        let entry = Advanced { number, instants, steps, trace_bytes };
        let run = super::part(list.run(), expected.len(), channel);
        if fact.answer.channels[channel] != entry || open_moment(run) != open {
            let found = fact.answer.channels[channel];
            return Err(format!(
                "channel {channel}: {found:?} at {}, not {entry:?} at {open}",
                open_moment(run)
            ));
        }
    }
    Ok(fact)
}

/// Every row with buffers that their number divides, and with as many bytes beyond as may be.
pub fn all(comparison: &mut Comparison, random: &mut Random) -> Compared<()> {
    for row in &ROWS {
        for beyond in [row.channels.len() - 1, 0] {
            let asked = (row.t, row.allowance, row.trace_length);
            let (mut list, call) = planned(comparison, random, row.channels, asked, beyond);
            let found = expect(&mut list, call, row.expected);
            found
                .and_then(|fact| fact.holds(comparison, random))
                .map_err(|fault| format!("{}, {fault}", row.name))?;
        }
        comparison.counts.meet(row.name);
    }
    Ok(())
}
