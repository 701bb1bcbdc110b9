//! What the searches for the deciding rule met at the ends of elapsed ranges, so that a comparison can tell
//! which ticks it has really seen, under either reading.

use crate::atomic::Atomic;
use crate::limits::UNBOUNDED;
use crate::ranges::Ranges;
use crate::records::{Message, Rule};

/// The transition that has an external part, and so a search.
#[derive(Clone, Copy, Debug, PartialEq, Eq)]
pub enum Searching {
    External,
    ConfluentInternalFirst,
    ConfluentExternalFirst,
}

/// A search, and the position of the rule that decided.
pub struct Search<'s, 'm> {
    pub by: Searching,
    pub atomic: &'s Atomic<'m>,
    pub phase: u8,
    pub elapsed: u64,
    pub bag: &'s [Message],
    pub decided: Option<usize>,
}

#[derive(Clone, Copy, Debug, Default, PartialEq, Eq)]
pub struct RangeEnds {
    /// In inclusive models, by transition: a rule decided on the tick of its high end.
    pub high_end_decided: [u64; 3],
    /// In half-open models, by transition: a rule was passed over only because of the tick of its high end,
    /// and a later one decided.
    pub high_end_left_to_another: [u64; 3],
    /// The same where no rule decided.
    pub high_end_left_to_none: [u64; 3],
    /// In half-open models: a rule decided on the last tick before its high end, on that of its low end
    /// (where that is not 0), and one that has no end.
    pub last_tick_decided: u64,
    pub low_end_decided: u64,
    pub no_end_decided: u64,
    /// The same with the elapsed time at the number that stands for no end, and past it.
    pub no_end_decided_at_its_number: u64,
    pub no_end_decided_past_its_number: u64,
}

impl RangeEnds {
    pub fn add(&mut self, search: &Search) {
        let rule = search.decided.map(|position| search.atomic.rule(position));
        match search.atomic.ranges() {
            Ranges::Inclusive => {
                let at_its_end = rule.is_some_and(|rule| ends_at(rule, search.elapsed));
                self.high_end_decided[search.by as usize] += u64::from(at_its_end);
            }
            Ranges::HalfOpen => {
                self.add_passed_over(search);
                rule.into_iter().for_each(|rule| self.add_decided(rule, search.elapsed));
            }
        }
    }

    fn add_passed_over(&mut self, search: &Search) {
        let Search { by, atomic, phase, elapsed, bag, decided } = *search;
        let ended = atomic.first_rule(phase, bag, |rule| ends_at(rule, elapsed));
        match (ended, decided) {
            (Some(_), None) => self.high_end_left_to_none[by as usize] += 1,
            (Some(ended), Some(later)) if ended < later => {
                self.high_end_left_to_another[by as usize] += 1;
            }
            _ => {}
        }
    }

    fn add_decided(&mut self, rule: &Rule, elapsed: u64) {
        let at_low_end = rule.low_elapsed > 0 && u64::from(rule.low_elapsed) == elapsed;
        self.low_end_decided += u64::from(at_low_end);
        self.last_tick_decided += u64::from(ends_at(rule, elapsed + 1));
        if rule.high_elapsed == UNBOUNDED {
            self.no_end_decided += 1;
            self.no_end_decided_at_its_number += u64::from(elapsed == u64::from(UNBOUNDED));
            self.no_end_decided_past_its_number += u64::from(elapsed > u64::from(UNBOUNDED));
        }
    }
}

/// Whether a rule's range has an end, and has it at this elapsed time.
fn ends_at(rule: &Rule, elapsed: u64) -> bool {
    rule.high_elapsed != UNBOUNDED && u64::from(rule.high_elapsed) == elapsed
}
