//! Wrong readings of elapsed ranges and of what follows the couplings, made of the reference: its flat machine with
//! another test of an elapsed time, its number of four sections with another look at the rest, its flat form with
//! another end.

mod files;
mod told;

pub use told::all;

use super::stays::advance_by;
use files::WrongFile;
use reference::atomic::Atomic;
use reference::decode::decode;
use reference::flat_machine::{changed, After, Brought};
use reference::limits::UNBOUNDED;
use reference::model::Model;
use reference::ranges::Ranges;
use reference::records::Rule;
use reference::{Advanced, Written};

#[derive(Clone, Copy, Debug, PartialEq, Eq)]
pub enum Wrong {
    Nothing,
    HalfOpenReadAsInclusive,
    InclusiveReadAsHalfOpen,
    LowEndExcludedInstead,
    BothEndsExcluded,
    LastTickExcludedToo,
    NoEndIsAnEnd,
    NoEndEndsPastItsNumber,
    NoEndExcludesItsNumber,
    ReadHalfOpenInExternalOnly,
    ReadHalfOpenInConfluentOnly,
    ElapsedOf32Bits,
    FlatFormForgetsTheSection,
    FlatFormAlwaysHasTheSection,
    FlatFormHasRoomForFourSections,
    AdvanceSays2InsteadOf20,
    OfFiles(WrongFile),
}

/// The elapsed time with which a step searches for a rule.
fn elapsed_of(brought: &Brought) -> u64 {
    match (brought.is_due, brought.atomic.internal_first()) {
        (true, true) => 0,
        _ => brought.moment - brought.entry.last,
    }
}

impl Wrong {
    /// How the ranges of a model are read, that should be read so.
    fn reading(self, right: Ranges, is_due: bool) -> Ranges {
        match self {
            Wrong::HalfOpenReadAsInclusive => Ranges::Inclusive,
            Wrong::InclusiveReadAsHalfOpen => Ranges::HalfOpen,
            Wrong::ReadHalfOpenInExternalOnly if is_due => Ranges::Inclusive,
            Wrong::ReadHalfOpenInConfluentOnly if !is_due => Ranges::Inclusive,
            _ => right,
        }
    }

    /// Whether an elapsed time is taken to lie in a rule's range.
    fn holds(self, reading: Ranges, rule: &Rule, elapsed: u64) -> bool {
        let has_no_end = rule.high_elapsed == UNBOUNDED;
        let (low, high) = (u64::from(rule.low_elapsed), u64::from(rule.high_elapsed));
        if reading == Ranges::Inclusive {
            return low <= elapsed && (has_no_end || elapsed <= high);
        }
        let elapsed = match self {
            Wrong::ElapsedOf32Bits => elapsed % (1 << 32),
            _ => elapsed,
        };
        let past_low_end = match self {
            Wrong::LowEndExcludedInstead | Wrong::BothEndsExcluded => low < elapsed,
            _ => low <= elapsed,
        };
        let before_high_end = match self {
            Wrong::LowEndExcludedInstead => has_no_end || elapsed <= high,
            Wrong::LastTickExcludedToo => has_no_end || elapsed + 1 < high,
            Wrong::NoEndIsAnEnd => elapsed < high,
            Wrong::NoEndEndsPastItsNumber if has_no_end => elapsed <= high,
            Wrong::NoEndExcludesItsNumber if has_no_end => elapsed != high,
            _ => has_no_end || elapsed < high,
        };
        past_low_end && before_high_end
    }

    /// The right transition, but of rules that hold at any time where they are taken to hold now, and else never.
    fn changed(self, model: &Model, brought: &Brought) -> After {
        let elapsed = elapsed_of(brought);
        let reading = self.reading(model.ranges, brought.is_due);
        let mut judged = Model { ranges: Ranges::Inclusive, ..model.clone() };
        for rule in &mut judged.rules {
            let holds = self.holds(reading, rule, elapsed);
            (rule.low_elapsed, rule.high_elapsed) = if holds { (0, UNBOUNDED) } else { (1, 0) };
        }
        let atomic = &Atomic::new(&judged, model.atomics()[brought.rank]);
        changed(&Brought { atomic, ..*brought })
    }

    pub fn advance(
        self,
        file: &[u8],
        run: &mut [u8],
        t: u64,
        bag: &[u8],
        trace: &mut [u8],
        rules: &mut [u8],
    ) -> Advanced {
        match decode(file) {
            Ok(model) => {
                let mut change = |brought: &Brought| self.changed(&model, brought);
                advance_by(&mut change, file, run, t, bag, trace, rules)
            }
            Err(20) if self == Wrong::AdvanceSays2InsteadOf20 => Advanced::refused(2),
            Err(number) => Advanced::refused(number),
        }
    }

    pub fn check_model(self, file: &[u8]) -> u64 {
        match self {
            Wrong::OfFiles(wrong) => wrong.check_model(file),
            _ => reference::check_model(file),
        }
    }

    pub fn flatten(self, file: &[u8], out: &mut [u8]) -> Written {
        let Ok(model) = decode(file) else {
            return reference::flatten(file, out);
        };
        let as_read = |ranges: Ranges| {
            let model = Model { ranges, ..model.clone() };
            reference::flatten::flat_form(&model).encode()
        };
        match (self, model.ranges) {
            (Wrong::FlatFormForgetsTheSection, _) => {
                Written::at_the_front(out, &as_read(Ranges::Inclusive))
            }
            (Wrong::FlatFormAlwaysHasTheSection, _) => {
                Written::at_the_front(out, &as_read(Ranges::HalfOpen))
            }
            (Wrong::FlatFormHasRoomForFourSections, Ranges::HalfOpen) => {
                let (four, five) = (as_read(Ranges::Inclusive), as_read(Ranges::HalfOpen));
                let fits = (four.len()..five.len()).contains(&out.len());
                let length = if fits { out.len() } else { five.len() };
                Written::at_the_front(out, &five[..length])
            }
            _ => reference::flatten(file, out),
        }
    }
}
