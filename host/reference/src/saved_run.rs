//! A saved run: its byte form, when it fits a model, and starting one.

use crate::answers::{Written, RUN_DOES_NOT_FIT};
use crate::decode::decode;
use crate::limits;
use crate::little_endian::{u16_at, u64_at};
use crate::model::Model;

/// Where one atomic stands.
#[derive(Clone, Copy, Debug, PartialEq, Eq)]
pub struct AtomicRun {
    pub phase: u8,
    /// Its last moment: when the stay in the phase began.
    pub last: u64,
}

#[derive(Clone, Debug, PartialEq, Eq)]
pub struct SavedRun {
    /// The earliest open moment.
    pub open: u64,
    /// In file order.
    pub atomics: Vec<AtomicRun>,
}

/// Where the first atomic stands in a saved run.
pub const HEAD_BYTES: usize = 10;
/// The bytes of each atomic in a saved run.
pub const ATOMIC_BYTES: usize = 9;

/// The bytes of a saved run with so many atomics.
pub fn length(atomics: usize) -> usize {
    HEAD_BYTES + ATOMIC_BYTES * atomics
}

impl SavedRun {
    /// The run that start writes.
    pub fn first(model: &Model) -> SavedRun {
        let at_start =
            |atomic: usize| AtomicRun { phase: model.components[atomic].initial_phase, last: 0 };
        SavedRun { open: 0, atomics: model.atomics().into_iter().map(at_start).collect() }
    }

    pub fn encode(&self) -> Vec<u8> {
        let mut bytes = self.open.to_le_bytes().to_vec();
        bytes.extend((self.atomics.len() as u16).to_le_bytes());
        for atomic in &self.atomics {
            bytes.push(atomic.phase);
            bytes.extend(atomic.last.to_le_bytes());
        }
        bytes
    }

    /// Writes the run over the front of a buffer; what lies beyond it stays.
    pub fn write(&self, buffer: &mut [u8]) {
        let bytes = self.encode();
        buffer[..bytes.len()].copy_from_slice(&bytes);
    }

    /// The run in a buffer, or the number by which it is refused.
    pub fn read_fitting(model: &Model, buffer: &[u8]) -> Result<SavedRun, u64> {
        let count = model.atomics().len();
        if buffer.len() < length(count) || usize::from(u16_at(buffer, 8)) != count {
            return Err(RUN_DOES_NOT_FIT);
        }
        let atomic = |rank: usize| {
            let at = length(rank);
            AtomicRun { phase: buffer[at], last: u64_at(buffer, at + 1) }
        };
        let run = SavedRun { open: u64_at(buffer, 0), atomics: (0..count).map(atomic).collect() };
        if run.fits(model) {
            Ok(run)
        } else {
            Err(RUN_DOES_NOT_FIT)
        }
    }

    fn fits(&self, model: &Model) -> bool {
        let ranked = model.atomics().into_iter().zip(&self.atomics);
        self.open <= limits::HIGHEST_OPEN_MOMENT
            && ranked.into_iter().all(|(number, atomic)| {
                let Some(phase) = model.phases_of(number).get(usize::from(atomic.phase)) else {
                    return false;
                };
                let both_zero = self.open == 0 && atomic.last == 0;
                let not_after_open = atomic.last < self.open || both_zero;
                // Only a moment below the open one is added to, so the sum stays small.
                not_after_open
                    && (phase.advance == limits::UNBOUNDED
                        || atomic.last + u64::from(phase.advance) >= self.open)
            })
    }
}

/// Writes the first run of a model into the lent buffer.
pub fn start(file: &[u8], run: &mut [u8]) -> Written {
    let model = match decode(file) {
        Ok(model) => model,
        Err(number) => return Written::refused(number),
    };
    Written::at_the_front(run, &SavedRun::first(&model).encode())
}
