//! Arguments for the next call of a list: times, bags, traces and positions that fit where the run
//! stands, at the edges of what is allowed, or beyond them.

use crate::call::Call;
use crate::models::chains::{CUE, RESET};
use crate::models::nests::VALUES;
use crate::random::Random;
use crate::runs::open_moment;
use reference::limits::{HIGHEST_TIME, NEVER_DUE, UNBOUNDED};
use reference::lit_rules;
use reference::model::Model;
use reference::saved_run::SavedRun;

/// What a generator needs to know of an accepted model.
pub struct Known {
    pub atomics: u64,
    /// The shortest advance above 0 of each atomic that can be due again and again.
    shortest: Vec<u64>,
}

/// About how many instants one call may have to do.
const INSTANTS: u64 = 40;
/// A trace that is long enough for nearly every call.
pub const LONG_TRACE: usize = 4_096;

impl Known {
    pub fn new(model: &Model) -> Known {
        let atomics = model.atomics();
        let shortest = |&atomic: &usize| {
            let advances = model.phases_of(atomic).iter().map(|phase| phase.advance);
            advances.filter(|&advance| advance != 0 && advance != UNBOUNDED).min().map(u64::from)
        };
        Known {
            atomics: atomics.len() as u64,
            shortest: atomics.iter().filter_map(shortest).collect(),
        }
    }

    /// How far a call may go from the open moment. Each instant but a bag's has an atomic that is
    /// due after an advance above 0, so that shorter spans have few instants.
    pub fn span(&self, random: &mut Random) -> u64 {
        let instants = random.between(1, INSTANTS);
        let longest = HIGHEST_TIME;
        let in_span = |span: u64| self.shortest.iter().map(|shortest| span / shortest).sum::<u64>();
        let mut span = longest;
        while span > 1 && in_span(span) > instants {
            span /= 2;
        }
        span
    }
}

/// The next call of a list on an accepted model.
pub fn next_call(
    random: &mut Random,
    file: &[u8],
    model: &Model,
    known: &Known,
    run: &[u8],
) -> Call {
    match random.below(100) {
        0..=9 => Call::Start,
        10..=27 => Call::Read { position: position(random, known.atomics) },
        _ => advance(random, file, model, known, run),
    }
}

pub fn position(random: &mut Random, atomics: u64) -> u64 {
    match random.below(16) {
        0 => atomics,
        1 => atomics + random.below(300),
        2 => random.below(atomics.max(1)) + 256,
        3 => random.below(atomics.max(1)) + (1 << 32),
        4 => random.pick(&[u64::MAX, 1 << 63, 1 << 16, (1 << 16) + 1]),
        5 => atomics.saturating_sub(1),
        _ => random.below(atomics.max(1)),
    }
}

fn advance(random: &mut Random, file: &[u8], model: &Model, known: &Known, run: &[u8]) -> Call {
    let t = match SavedRun::read_fitting(model, run) {
        Ok(saved) => time(random, known, saved.open, reference::read(file, run, 0).next_due),
        Err(_) => any_time(random, open_moment(run)),
    };
    let bag = bag(random);
    let trace_length = trace_length(random, file, run, t, &bag);
    let trace = random.bytes(trace_length);
    Call::Advance { t, bag, trace, rules: rules_table(random, known.atomics as usize) }
}

/// A table of rules, too short or not, with any first bytes.
pub fn rules_table(random: &mut Random, atomics: usize) -> Vec<u8> {
    let needed = lit_rules::length(atomics);
    let length = match random.below(10) {
        0 => 0,
        1 => needed.saturating_sub(1),
        2 => random.index(needed + 1),
        3..=6 => needed,
        _ => needed + 1 + random.index(20),
    };
    random.bytes(length)
}

fn time(random: &mut Random, known: &Known, open: u64, next_due: u64) -> u64 {
    let span = known.span(random);
    let latest = open.saturating_add(span).min(HIGHEST_TIME).max(open);
    let due = if next_due == NEVER_DUE || next_due == 0 { open } else { next_due };
    match random.below(32) {
        0 => any_time(random, open),
        1 => open.saturating_sub(1),
        2..=5 => open,
        6 => open + 1,
        7..=11 => due.min(latest),
        12 | 13 => (due + 1).min(latest),
        14 | 15 => due.saturating_sub(1).clamp(open, latest),
        16 | 17 => latest,
        _ => random.between(open, latest),
    }
}

/// A time that is refused, or that a run which does not fit is called with.
fn any_time(random: &mut Random, open: u64) -> u64 {
    let refused = [
        HIGHEST_TIME + 1,
        HIGHEST_TIME + 2,
        u64::MAX,
        1 << 63,
        open.saturating_sub(1),
        open.wrapping_sub(1),
        open / 2,
    ];
    let t = random.pick(&refused);
    if t >= open && t <= HIGHEST_TIME {
        HIGHEST_TIME + 1
    } else {
        t
    }
}

/// So many messages on ports that exist.
pub fn messages(random: &mut Random, count: usize) -> Vec<u8> {
    let mut bytes = Vec::new();
    for _ in 0..count {
        bytes.push(random.pick(&[0, 0, 0, 1, 1, 2, 3]));
        let value = match random.below(4) {
            0 => random.pick(&[CUE, RESET]),
            1 => random.next() as u16,
            _ => random.pick(&VALUES),
        };
        bytes.extend(value.to_le_bytes());
    }
    bytes
}

pub fn bag(random: &mut Random) -> Vec<u8> {
    match random.below(40) {
        0 => messages(random, 16),
        1 => messages(random, 17),
        2 => {
            // A length that is no multiple of 3, or more than 16 messages.
            let length = random.pick(&[1, 2, 4, 10, 46, 47, 49, 50, 51, 54, 300]);
            vec![0; length]
        }
        3 => {
            let count = random.between(1, 16) as usize;
            let mut bytes = messages(random, count);
            bytes[3 * random.index(count)] = random.pick(&[4, 5, 128, 255]);
            bytes
        }
        4..=7 => {
            let count = random.between(4, 16) as usize;
            messages(random, count)
        }
        8..=22 => {
            let count = random.between(1, 3) as usize;
            messages(random, count)
        }
        _ => Vec::new(),
    }
}

/// Now and then the length is taken from what the call needs: exactly that, one byte less, or part of it.
fn trace_length(random: &mut Random, file: &[u8], run: &[u8], t: u64, bag: &[u8]) -> usize {
    if random.percent(80) {
        return match random.below(8) {
            0 => 0,
            1 => random.index(100),
            _ => LONG_TRACE,
        };
    }
    let mut scratch = vec![0; 4 * LONG_TRACE];
    let needed = reference::advance(file, &mut run.to_vec(), t, bag, &mut scratch, &mut [])
        .trace_bytes as usize;
    match random.below(8) {
        0..=2 => needed,
        3..=5 => needed.saturating_sub(1),
        6 => needed + 1,
        _ => random.index(needed + 1),
    }
}
