//! First bytes of run buffers: fitting runs that no start could have written, runs that just fail
//! to fit, and junk.

use crate::random::Random;
use reference::limits::{HIGHEST_OPEN_MOMENT, UNBOUNDED};
use reference::little_endian::u64_at;
use reference::model::Model;
use reference::saved_run::{self, AtomicRun, SavedRun};

/// A fitting run with any phases and last moments. Where no phase but one of advance 0 can be had,
/// its open moment is 0.
pub fn fitting(random: &mut Random, model: &Model) -> SavedRun {
    let atomics = model.atomics();
    let lasting = |atomic: usize| -> Vec<u8> {
        let phases = model.phases_of(atomic);
        (0..phases.len() as u8).filter(|&phase| phases[usize::from(phase)].advance != 0).collect()
    };
    let only_zero_stays = atomics.iter().any(|&atomic| lasting(atomic).is_empty());
    let open = match random.below(10) {
        _ if only_zero_stays => 0,
        0 => 0,
        1 => 1,
        2 => HIGHEST_OPEN_MOMENT,
        3 => HIGHEST_OPEN_MOMENT - random.below(50),
        4 => random.below(HIGHEST_OPEN_MOMENT),
        5 => (1 << 32) + random.below(100),
        _ => random.between(2, 200),
    };
    let mut standing = |atomic: usize| -> AtomicRun {
        let phases = model.phases_of(atomic);
        if open == 0 {
            return AtomicRun { phase: random.index(phases.len()) as u8, last: 0 };
        }
        let phase = random.pick(&lasting(atomic));
        let advance = phases[usize::from(phase)].advance;
        let earliest = match advance {
            UNBOUNDED => 0,
            advance => open.saturating_sub(u64::from(advance)),
        };
        let last = match random.below(4) {
            0 => earliest,
            1 => open - 1,
            _ => random.between(earliest, open - 1),
        };
        AtomicRun { phase, last }
    };
    SavedRun { open, atomics: atomics.iter().map(|&atomic| standing(atomic)).collect() }
}

/// One way to make a fitting run fit no more. It answers the buffer, or none where that can't be done.
pub struct RunDamage {
    pub name: &'static str,
    apply: fn(&mut Random, &Model, &SavedRun) -> Option<Vec<u8>>,
}

impl RunDamage {
    pub fn apply(&self, random: &mut Random, model: &Model, run: &SavedRun) -> Option<Vec<u8>> {
        (self.apply)(random, model, run)
    }
}

pub const RUN_DAMAGES: [RunDamage; 11] = [
    RunDamage {
        name: "run one byte too short",
        apply: |_, _, run| run.encode().split_last().map(|(_, front)| front.to_vec()),
    },
    RunDamage {
        name: "run of another count",
        apply: |random, _, run| {
            let mut bytes = run.encode();
            bytes[8] = bytes[8].wrapping_add(random.pick(&[1, 255]));
            bytes.extend([0; 9]);
            Some(bytes)
        },
    },
    RunDamage {
        name: "run with the count right in one byte only",
        apply: |_, _, run| {
            let mut bytes = run.encode();
            bytes[9] = 1;
            Some(bytes)
        },
    },
    RunDamage {
        name: "run with a phase at the count",
        apply: |random, model, run| {
            let rank = rank(random, run)?;
            let count = model.phases_of(model.atomics()[rank]).len();
            Some(changed(run, |run| run.atomics[rank].phase = count as u8))
        },
    },
    RunDamage {
        name: "open moment above 10^12 + 1",
        apply: |random, _, run| {
            let higher = HIGHEST_OPEN_MOMENT + 1;
            let open = random.pick(&[higher, higher, higher + 1, 1 << 63, u64::MAX]);
            // All but the open moment itself fits, unless a phase has advance 0.
            Some(changed(run, |run| {
                run.open = open;
                run.atomics.iter_mut().for_each(|atomic| atomic.last = open - 1);
            }))
        },
    },
    RunDamage {
        name: "last moment at the open moment",
        apply: |random, _, run| {
            let rank = rank(random, run)?;
            (run.open > 0).then(|| changed(run, |run| run.atomics[rank].last = run.open))
        },
    },
    RunDamage {
        name: "last moment after the open moment",
        apply: |random, _, run| {
            let rank = rank(random, run)?;
            let later = run.open + random.between(1, 1_000_000);
            Some(changed(run, |run| run.atomics[rank].last = later))
        },
    },
    RunDamage {
        name: "last moment above 0 with open moment 0",
        apply: |random, model, _| {
            let mut run = SavedRun::first(model);
            let rank = rank(random, &run)?;
            run.atomics[rank].last = random.pick(&[1, 2, 256, 1 << 32]);
            Some(run.encode())
        },
    },
    RunDamage {
        name: "last moment 2^64 − 1",
        apply: |random, _, run| {
            let rank = rank(random, run)?;
            Some(changed(run, |run| run.atomics[rank].last = u64::MAX))
        },
    },
    RunDamage {
        name: "due one before the open moment",
        apply: |random, model, run| {
            let rank = rank(random, run)?;
            let phases = model.phases_of(model.atomics()[rank]);
            let advance = phases[usize::from(run.atomics[rank].phase)].advance;
            let last = run.open.checked_sub(u64::from(advance) + 1)?;
            (advance != UNBOUNDED).then(|| changed(run, |run| run.atomics[rank].last = last))
        },
    },
    RunDamage {
        name: "zero-stay phase with an open moment above 0",
        apply: |random, model, run| {
            let rank = rank(random, run)?;
            let phases = model.phases_of(model.atomics()[rank]);
            let zero = phases.iter().position(|phase| phase.advance == 0)?;
            (run.open > 0).then(|| {
                changed(run, |run| {
                    run.atomics[rank] = AtomicRun { phase: zero as u8, last: run.open - 1 }
                })
            })
        },
    },
];

fn rank(random: &mut Random, run: &SavedRun) -> Option<usize> {
    (!run.atomics.is_empty()).then(|| random.index(run.atomics.len()))
}

fn changed(run: &SavedRun, change: impl FnOnce(&mut SavedRun)) -> Vec<u8> {
    let mut run = run.clone();
    change(&mut run);
    run.encode()
}

/// First bytes of a run buffer for a list of calls, of any kind and any length.
pub fn first_bytes(random: &mut Random, model: &Model) -> Vec<u8> {
    let length = saved_run::length(model.atomics().len());
    let beyond = random.pick(&[0, 0, 1, 7, 40]);
    match random.below(20) {
        0 => {
            let short = random.index(length);
            random.bytes(short)
        }
        1 => random.bytes(length - 1),
        2..=9 => random.bytes(length + beyond),
        10 => vec![0; length + beyond],
        11 => vec![0xFF; length + beyond],
        _ => {
            let mut bytes = fitting(random, model).encode();
            bytes.extend(random.bytes(beyond));
            bytes
        }
    }
}

/// The open moment in a run buffer of any length.
pub fn open_moment(run: &[u8]) -> u64 {
    if run.len() < 8 {
        0
    } else {
        u64_at(run, 0)
    }
}
