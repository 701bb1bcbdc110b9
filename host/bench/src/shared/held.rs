//! The state of a run inside a call: the phase and the last moment of each atomic, by position.

use super::model_file::ModelFile;
use super::tables::Tables;
use super::unchecked::{at, put, put_bytes, u16_at, u32_at, u64_at};
use reference::answers::RUN_DOES_NOT_FIT;
use reference::limits;
use reference::records::Phase;
use reference::saved_run::{ATOMIC_BYTES, HEAD_BYTES};

/// When nothing is due.
pub const NEVER: u64 = u64::MAX;

#[derive(Clone)]
pub struct Held {
    pub phases: [u8; limits::COMPONENTS],
    pub lasts: [u64; limits::COMPONENTS],
}

/// The moment at which a stay in the phase of a record ends that began at `last`.
#[inline(always)]
pub fn due_after(phases: &[u8], record: usize, last: u64) -> u64 {
    let advance = u32_at(phases, Phase::BYTES * record);
    if advance == limits::UNBOUNDED {
        NEVER
    } else {
        last + u64::from(advance)
    }
}

impl Held {
    /// The phase record of an atomic, by its position and its component number.
    #[inline(always)]
    pub fn record(&self, tables: &Tables, position: usize, number: usize) -> usize {
        usize::from(at(&tables.first_phases, number)) + usize::from(at(&self.phases, position))
    }

    #[inline(always)]
    pub fn change(&mut self, position: usize, phase: u8, now: u64) {
        put(&mut self.phases, position, phase);
        put(&mut self.lasts, position, now);
    }

    /// The open moment and the state in a run buffer, or the number by which it is refused.
    pub fn load(model: &ModelFile, tables: &Tables, run: &[u8]) -> Result<(u64, Held), u64> {
        let count = tables.atomics;
        if run.len() < HEAD_BYTES + ATOMIC_BYTES * count || usize::from(u16_at(run, 8)) != count {
            return Err(RUN_DOES_NOT_FIT);
        }
        let open = u64_at(run, 0);
        if open > limits::HIGHEST_OPEN_MOMENT {
            return Err(RUN_DOES_NOT_FIT);
        }
        let mut held = Held { phases: [0; limits::COMPONENTS], lasts: [0; limits::COMPONENTS] };
        for position in 0..count {
            let number = usize::from(at(&tables.numbers, position));
            let place = HEAD_BYTES + ATOMIC_BYTES * position;
            let phase = at(run, place);
            let last = u64_at(run, place + 1);
            if phase >= at(&model.phase_counts, number) || (last >= open && open | last != 0) {
                return Err(RUN_DOES_NOT_FIT);
            }
            held.change(position, phase, last);
            if due_after(model.phases, held.record(tables, position, number), last) < open {
                return Err(RUN_DOES_NOT_FIT);
            }
        }
        Ok((open, held))
    }

    /// Writes the run over the front of its buffer, where the count of atomics already stands.
    pub fn save(&self, open: u64, count: usize, run: &mut [u8]) {
        put_bytes(run, 0, open.to_le_bytes());
        for position in 0..count {
            let place = HEAD_BYTES + ATOMIC_BYTES * position;
            put(run, place, at(&self.phases, position));
            put_bytes(run, place + 1, at(&self.lasts, position).to_le_bytes());
        }
    }
}
