//! Runs and calls for random channels: open moments close together, bags anywhere, traces of any length, and
//! allowances from the least on.

use crate::arguments::{self, LONG_TRACE};
use crate::call::OnChannels;
use crate::models::busy;
use crate::random::Random;
use crate::runs::{self, open_moment};
use reference::channels::part_of;
use reference::limits::{CHANNELS, HIGHEST_TIME, STEPS_OF_A_CHANNEL};
use reference::model::Model;
use reference::saved_run::{self, AtomicRun, SavedRun};
use reference::{Place, Places};

pub fn count(random: &mut Random) -> usize {
    match random.below(8) {
        0 => 1,
        1..=3 => random.between(2, CHANNELS as u64 - 1) as usize,
        _ => CHANNELS,
    }
}

/// A buffer of so many runs of a model, of which most fit and are not far apart.
pub fn first_runs(random: &mut Random, model: &Model, span: u64, count: usize) -> Vec<u8> {
    let needed = saved_run::length(model.atomics().len());
    let length = match random.below(40) {
        0 => 0,
        1 => needed - 1,
        2..=20 => needed,
        _ => needed + random.index(5),
    };
    let file = model.encode();
    let mut runs = Vec::new();
    for _ in 0..count {
        let mut run = match random.below(20) {
            0 => random.bytes(length),
            1 => runs::fitting(random, model).encode(),
            _ => advanced(random, &file, model, span),
        };
        let more = length.saturating_sub(run.len());
        run.extend(random.bytes(more));
        runs.extend(&run[..length]);
    }
    let beyond = random.index(count);
    runs.extend(random.bytes(beyond));
    runs
}

/// A run some way from its start.
fn advanced(random: &mut Random, file: &[u8], model: &Model, span: u64) -> Vec<u8> {
    let mut run = SavedRun::first(model).encode();
    if random.percent(70) {
        let t = random.between(0, span / 2);
        reference::advance(file, &mut run, t, &[], &mut [0; LONG_TRACE], &mut []);
    }
    run
}

/// A call on so many channels as they stand.
pub fn call(random: &mut Random, runs: &[u8], count: usize, span: u64) -> OnChannels {
    let opens: Vec<u64> =
        (0..count).map(|channel| open_moment(part_of(runs, count, channel))).collect();
    // Those that do not fit have any open moment.
    let near = opens.iter().copied().filter(|&open| open <= span).max().unwrap_or(0);
    let latest = near.saturating_add(span).min(HIGHEST_TIME);
    let any = opens[random.index(count)];
    let t = match random.below(20) {
        0 => random.pick(&[HIGHEST_TIME + 1, u64::MAX]),
        1 => any.saturating_sub(1).min(latest),
        2..=4 => random.between(0, near),
        5 | 6 => near,
        _ => random.between(near, latest),
    };
    let bags: Vec<Vec<u8>> = (0..count).map(|_| arguments::bag(random)).collect();
    let (bags, places) = laid_out(random, &bags);
    let places = moved(random, places, bags.len() as u64, count);
    let trace_length = match random.below(10) {
        0 => 0,
        1..=4 => random.between(10, 90) as usize,
        _ => LONG_TRACE,
    };
    let beyond = random.index(count);
    let traces = random.bytes(trace_length * count + beyond);
    let (count, allowance) = count_and_allowance(random, count as u64);
    OnChannels { count, t, allowance, bags, places, traces }
}

fn count_and_allowance(random: &mut Random, count: u64) -> (u64, u64) {
    let least = STEPS_OF_A_CHANNEL * count;
    match random.below(32) {
        0 => (random.pick(&[0, 9, 10, 256 + count, 1 << 61, u64::MAX]), least),
        1 => (count, random.pick(&[0, least - 1, STEPS_OF_A_CHANNEL - 1, least / 2 - 1])),
        2..=9 => (count, least),
        10 => (count, u64::MAX),
        11..=20 => (count, least + random.below(count.max(2))),
        _ => (count, least + random.below(3_000)),
    }
}

/// Bags that lie one behind the other, with some bytes between them, and the places of all of them.
pub fn laid_out(random: &mut Random, bags: &[Vec<u8>]) -> (Vec<u8>, Places) {
    let (mut bytes, mut places) = (Vec::new(), Places::default());
    for (place, bag) in places.iter_mut().zip(bags) {
        let between = random.index(3);
        bytes.extend(random.bytes(between));
        *place = Place { start: bytes.len() as u64, length: bag.len() as u64 };
        bytes.extend(bag);
    }
    (bytes, places)
}

/// Places as they were laid out but for some: two of one bag, an empty one at the end, and some past the end.
fn moved(random: &mut Random, mut places: Places, end: u64, count: usize) -> Places {
    for channel in 0..count {
        let other = places[random.index(count)];
        let place = &mut places[channel];
        match random.below(16) {
            0 => *place = other,
            1 | 2 if place.length == 0 => place.start = end,
            3 => {
                let past = [(end + 1, 0), (end, 3), (end.saturating_sub(2), 3), (0, end + 3)];
                let far =
                    [(u64::MAX, 0), (u64::MAX, u64::MAX), (u64::MAX - 2, 6), (3, u64::MAX - 2)];
                let (start, length) = random.pick(&[past, far].concat());
                *place = Place { start, length };
            }
            _ => {}
        }
    }
    // Of channels that are not there any place will do.
    places[count..].iter_mut().for_each(|place| place.start = random.next());
    places
}

/// A model that is soon out of steps, so many runs of it, and a call on them.
pub fn busy(random: &mut Random) -> (Vec<u8>, Vec<u8>, OnChannels) {
    let model = busy::busy(random);
    let file = model.encode();
    let first = SavedRun::first(&model);
    let count = if random.percent(60) { CHANNELS } else { count(random) };
    let mut scratch = first.encode();
    const MEASURED: u64 = 30;
    let steps =
        reference::advance(&file, &mut scratch, MEASURED, &[], &mut [0; 9_000], &mut []).steps;
    let wanted = random.pick(&[700, 1_100, 1_100, 1_500, 2_500]);
    let span = MEASURED + wanted * MEASURED / steps.max(1);
    let resting = first.atomics.iter().map(|_| AtomicRun { phase: 0, last: 0 }).collect();
    let resting = SavedRun { open: 0, atomics: resting };
    let mut runs = Vec::new();
    // Where all are busy, nobody has more than a share, and the last ones are out of steps too.
    let all_busy = random.percent(40);
    for _ in 0..count {
        match random.below(20) {
            _ if all_busy => runs.extend(first.encode()),
            0 => runs.extend(vec![0xFF; scratch.len()]),
            1..=7 => runs.extend(resting.encode()),
            _ => runs.extend(advanced(random, &file, &model, MEASURED)),
        }
    }
    let mut call = call(random, &runs, count, MEASURED);
    call.count = count as u64;
    call.allowance = STEPS_OF_A_CHANNEL * call.count + random.below(9);
    if call.t <= HIGHEST_TIME {
        call.t += span;
    }
    if random.percent(70) {
        let beyond = random.index(count);
        call.traces = random.bytes(20_000 * count + beyond);
    }
    meet_where_it_stops(random, &file, &runs, &mut call);
    (file, runs, call)
}

/// Now and then the moment is that of an instant for which a channel has too few steps, or one before it, or the
/// trace is full just there.
fn meet_where_it_stops(random: &mut Random, file: &[u8], runs: &[u8], call: &mut OnChannels) {
    let (mut after, mut traces) = (runs.to_vec(), call.traces.clone());
    let answer = reference::advance_channels(file, &mut after, &call.asked(), &mut traces);
    let is_out = |&channel: &usize| answer.channels[channel].number == 22;
    let Some(channel) = (0..CHANNELS).find(is_out) else {
        return;
    };
    let count = call.count as usize;
    let due = reference::read(file, part_of(&after, count, channel), 0).next_due;
    match random.below(6) {
        0 | 1 => call.t = call.t.min(due),
        2 => call.t = call.t.min(due.saturating_sub(1)),
        3 => call.traces.truncate(answer.channels[channel].trace_bytes as usize * count),
        _ => {}
    }
}
