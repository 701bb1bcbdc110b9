//! Traces that no run has written: any numbers that a trace may have, and mostly those at an edge.

use crate::random::Random;
use reference::limits::{HIGHEST_PORT, HIGHEST_TIME, ROOT_BAG};
use reference::records::Message;
use reference::trace::Record;

const MOMENTS: [u64; 12] = [
    0,
    1,
    255,
    256,
    65_535,
    u32::MAX as u64,
    1 << 32,
    HIGHEST_TIME,
    HIGHEST_TIME + 1,
    1 << 63,
    u64::MAX - 256,
    u64::MAX,
];
const STEPS: [u16; 9] = [1, 2, 254, 255, 256, 1_023, 1_024, 60_000, u16::MAX];
const VALUES: [u16; 8] = [0, 1, 255, 256, 257, 511, 512, u16::MAX];

/// The records of a trace, as many as chance makes them.
pub fn records(random: &mut Random) -> Vec<Record> {
    let count = match random.below(10) {
        0 => 0,
        1 => 1,
        2 => random.between(7, 60),
        _ => random.between(2, 6),
    };
    in_turn(random, count, |random| {
        let count = match random.below(200) {
            0 => random.pick(&[ROOT_BAG, ROOT_BAG + 1, 65_535]),
            1..=10 => random.between(6, 60) as usize,
            11..=100 => 1,
            _ => random.between(2, 5) as usize,
        };
        messages(random, count)
    })
}

/// A few records of few messages, so that everything can be done at each of their bytes.
pub fn few_records(random: &mut Random) -> Vec<Record> {
    let count = random.between(2, 3);
    in_turn(random, count, |random| {
        let count = random.between(1, 3) as usize;
        messages(random, count)
    })
}

/// So many records, or fewer where no pair lies above the last one.
fn in_turn(
    random: &mut Random,
    count: u64,
    mut messages: impl FnMut(&mut Random) -> Vec<Message>,
) -> Vec<Record> {
    let mut pair = Some((first_moment(random), first_step(random)));
    let mut records = Vec::new();
    while let Some((moment, step)) = pair.filter(|_| (records.len() as u64) < count) {
        records.push(Record { moment, step, messages: messages(random) });
        pair = next_pair(random, moment, step);
    }
    records
}

fn first_moment(random: &mut Random) -> u64 {
    match random.below(4) {
        0 => random.pick(&MOMENTS),
        1 => random.next(),
        _ => random.below(1_000),
    }
}

/// The first step that a moment has a record of.
fn first_step(random: &mut Random) -> u16 {
    match random.below(4) {
        0 => random.pick(&STEPS),
        1 => random.next() as u16,
        _ => 0,
    }
}

/// A pair above another: a later step of the moment, or a later moment with any step.
fn next_pair(random: &mut Random, moment: u64, step: u16) -> Option<(u64, u16)> {
    let later_step = step.checked_add(1).map(|least| {
        let later: Vec<u16> = STEPS.into_iter().filter(|&known| known >= least).collect();
        match random.below(3) {
            0 if !later.is_empty() => (moment, random.pick(&later)),
            1 => (moment, random.between(least.into(), u16::MAX.into()) as u16),
            _ => (moment, least),
        }
    });
    if random.percent(45) && later_step.is_some() {
        return later_step;
    }
    let Some(least) = moment.checked_add(1) else {
        return later_step;
    };
    let moment = match random.below(12) {
        0 => random.between(least, u64::MAX),
        1 => u64::MAX,
        2..=4 => least.saturating_add(254),
        5..=7 => least.saturating_add(random.below(3_000)),
        _ => least,
    };
    Some((moment, first_step(random)))
}

/// So many messages that do not fall, some of them equal.
pub fn messages(random: &mut Random, count: usize) -> Vec<Message> {
    let mut messages: Vec<Message> = (0..count)
        .map(|_| Message {
            port: random.below(u64::from(HIGHEST_PORT) + 1) as u8,
            value: match random.below(3) {
                0 => random.next() as u16,
                _ => random.pick(&VALUES),
            },
        })
        .collect();
    messages.sort_unstable();
    messages
}
