//! What a step of the flat machine makes of one atomic.

use crate::atomic::Atomic;
use crate::limits::NO_RULE;
use crate::records::Message;
use crate::saved_run::AtomicRun;

/// What a step brings to one atomic.
pub struct Brought<'s> {
    pub atomic: &'s Atomic<'s>,
    pub rank: usize,
    pub entry: AtomicRun,
    pub moment: u64,
    pub is_due: bool,
    pub bag: &'s [Message],
}

/// What a step makes of an atomic: its entry in the run, and in the table of rules, where it has an
/// external part in this step.
#[derive(Clone, Copy, Debug, PartialEq, Eq)]
pub struct After {
    pub entry: AtomicRun,
    pub rule: Option<u16>,
}

/// Says what a step makes of an atomic.
pub type Change<'c> = dyn FnMut(&Brought) -> After + 'c;

/// The entry stays as it is where nothing happens to the atomic, and where it is not due and no rule holds
/// for its bag.
pub fn changed(brought: &Brought) -> After {
    let Brought { atomic, entry, moment, is_due, bag, .. } = *brought;
    let old = entry.phase;
    let mut rule = None;
    let mut led = |from: u8, elapsed: u64| {
        let deciding = atomic.deciding_rule(from, elapsed, bag);
        rule = Some(deciding.map_or(NO_RULE, |(position, _)| position as u16));
        deciding.map(|(_, next_phase)| next_phase)
    };
    let entered = match (is_due, bag.is_empty()) {
        (false, true) => None,
        (false, false) => led(old, moment - entry.last),
        (true, true) => Some(atomic.next_phase(old)),
        (true, false) if atomic.internal_first() => {
            let next = atomic.next_phase(old);
            Some(led(next, 0).unwrap_or(next))
        }
        (true, false) => {
            let advance = atomic.advance(old).expect("a never-due atomic is not due");
            Some(atomic.next_phase(led(old, advance).unwrap_or(old)))
        }
    };
    After { entry: entered.map_or(entry, |phase| AtomicRun { phase, last: moment }), rule }
}
