//! Wrong counts of the messages that meet a rule, least counts read wrongly, and a bag that is cut, made of
//! the flat machine, which is right in all else.

use super::stays::advance_by;
use super::{comparison_with, find_on_random_models, Fault};
use crate::random::Random;
use crate::special::{bags, Special};
use reference::atomic::{match_count, Atomic};
use reference::decode::decode;
use reference::flat_machine::{changed, After, Brought};
use reference::model::Model;
use reference::Advanced;

#[derive(Clone, Copy, Debug, PartialEq, Eq)]
pub enum Wrong {
    Nothing,
    CountOf8Bits,
    CountOf14Bits,
    CountStopsAt16383,
    BagCutAfter16383,
    LeastCountOf8Bits,
    LeastCountHasASign,
}

const JUST_ENOUGH: &str = "least count that the bag just has";
const ONE_MORE: &str = "least count one more than the bag has";
const HIGHEST_BIT_MORE: &str = "least count 32,768 more than the bag has";

/// Each with the row that tells it first.
pub const ALL: [(Wrong, &str); 6] = [
    (Wrong::CountOf8Bits, JUST_ENOUGH),
    (Wrong::CountOf14Bits, JUST_ENOUGH),
    (Wrong::CountStopsAt16383, JUST_ENOUGH),
    (Wrong::BagCutAfter16383, JUST_ENOUGH),
    (Wrong::LeastCountOf8Bits, ONE_MORE),
    (Wrong::LeastCountHasASign, HIGHEST_BIT_MORE),
];

impl Wrong {
    /// Whether so many messages are enough for a rule.
    fn is_enough(self, least: u16, count: usize) -> bool {
        let wanted = usize::from(least);
        match self {
            Wrong::CountOf8Bits => wanted <= count % 256,
            Wrong::CountOf14Bits => wanted <= count % 16_384,
            Wrong::CountStopsAt16383 => wanted <= count.min(16_383),
            Wrong::LeastCountOf8Bits => wanted % 256 <= count,
            Wrong::LeastCountHasASign => least as i16 <= count as i16,
            Wrong::Nothing | Wrong::BagCutAfter16383 => wanted <= count,
        }
    }

    /// The right transition, but of rules that want no message where the wrong count is enough for them, and
    /// else more than any bag has.
    fn changed(self, model: &Model, brought: &Brought) -> After {
        let bag = match self {
            Wrong::BagCutAfter16383 => &brought.bag[..brought.bag.len().min(16_383)],
            _ => brought.bag,
        };
        let mut judged = model.clone();
        for rule in &mut judged.rules {
            let is_enough = self.is_enough(rule.least_count, match_count(rule, bag));
            rule.least_count = if is_enough { 0 } else { u16::MAX };
        }
        let atomic = &Atomic::new(&judged, model.atomics()[brought.rank]);
        changed(&Brought { atomic, bag, ..*brought })
    }

    pub fn advance(
        self,
        file: &[u8],
        run: &mut [u8],
        t: u64,
        bag: &[u8],
        trace: &mut [u8],
        rules: &mut [u8],
    ) -> Advanced {
        let Ok(model) = decode(file) else {
            return reference::advance(file, run, t, bag, trace, rules);
        };
        let mut change = |brought: &Brought| self.changed(&model, brought);
        advance_by(&mut change, file, run, t, bag, trace, rules)
    }
}

/// What a special case tells of a fault.
fn told(wrong: Wrong, case: Special) -> String {
    let mut comparison = comparison_with(Fault::AboutCounts(wrong));
    case(&mut comparison, &mut Random::new(1)).expect_err("a row tells the fault")
}

#[test]
fn rows_alone_find_what_is_wrong_about_counts() {
    for (wrong, row) in ALL {
        let difference = told(wrong, bags::largest_atomic_bags);
        assert!(difference.starts_with(&format!("{row}, ")), "{wrong:?} is told by {difference}");
    }
}

#[test]
fn the_row_through_levels_finds_what_is_wrong_about_counts() {
    for (wrong, _) in ALL {
        let difference = told(wrong, bags::atomic_bag_through_levels);
        let row = "16,384 messages through eight levels, ";
        assert!(difference.starts_with(row), "{wrong:?} is told by {difference}");
    }
}

/// The others show seldom or never there: few random bags have 256 messages, and none has 16,384.
#[test]
fn random_models_alone_find_a_least_count_with_a_sign() {
    let fault = Fault::AboutCounts(Wrong::LeastCountHasASign);
    assert!(find_on_random_models(fault, 100).is_some());
}
