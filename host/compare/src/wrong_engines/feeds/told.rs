//! Each wrong way to run a feed is told, by a row and by random models alone.

use super::Wrong;
use crate::comparison::Compared;
use crate::feeds;
use crate::random::Random;
use crate::wrong_engines::{comparison_with, find, find_on_random_models, Fault};

/// Each with the row that tells it first.
const SHOWN_AT_RANDOM: [(Wrong, &str); 30] = [
    (Wrong::LeftOverAllowed, "no feed: no bag, and a byte left over"),
    (Wrong::CutBagDropped, "no feed: no byte"),
    (Wrong::MoreBagsAllowed, "no feed: 1,001 bags"),
    (Wrong::BagCountOfOneByte, "no feed: count of 257 for one bag"),
    (Wrong::MoreMessagesAllowed, "no feed: 17 messages"),
    (Wrong::MomentsMayRepeat, "no feed: moment repeated"),
    (Wrong::MomentsMayFall, "no feed: moment repeated"),
    (Wrong::MomentsComparedFromTheLowByte, "no feed: moment falls, its low byte rises"),
    (Wrong::LateMomentsAllowed, "no feed: moment 1,000,000,000,001"),
    (Wrong::Port4Allowed, "no feed: port 4"),
    (Wrong::NoBagRefused, "feed of no bag"),
    (Wrong::EmptyBagRefused, "feed to its last bag"),
    (Wrong::FeedBeforeTheRun, "no feed: no byte"),
    (Wrong::TimesBeforeTheFeed, "no feed: no byte"),
    (Wrong::EndBeforeTheLastBagAllowed, "bad end: before the last bag"),
    (Wrong::LateEndFoundLate, "bad end: above the highest moment"),
    (Wrong::EarlyBagsPassedOver, "bad end: first bag before the open moment"),
    (Wrong::AlwaysGoesToTheEnd, "feed to its last bag"),
    (Wrong::NeverGoesToTheEnd, "feed of no bag"),
    (Wrong::NoBagDoesNothing, "feed of no bag"),
    (Wrong::GoesOnAfterARefusal, "feed stopped by 13 at a later bag"),
    (Wrong::EveryCallOnTheFirstRun, "feed to its last bag"),
    (Wrong::WholeTraceEachTime, "feed to its last bag"),
    (Wrong::EndCallIsABag, "feed of no bag"),
    (Wrong::StoppedBagIsCounted, "feed stopped by 15 at the first bag"),
    (Wrong::EmptyBagIsNotCounted, "feed to its last bag"),
    (Wrong::StoppedCallIsNotCounted, "feed stopped by 15 at the first bag"),
    (Wrong::LastCallAloneIsCounted, "feed to its last bag"),
    (Wrong::UndoesTheStoppedCall, "feed stopped by 15 at the first bag"),
    (Wrong::UndoesAllWhereStopped, "feed stopped by 15 at the first bag"),
];

/// The same of what shows in long feeds only, which no random one is.
const SHOWN_BY_ROWS_ALONE: [(Wrong, &str); 1] = [(Wrong::BagsOfOneByte, "feed of 1,000 bags")];

/// In so many random models a fault must be found. A third of them has feeds, and few of these are spoilt in
/// the one way that shows it.
const RANDOM_MODELS: u64 = 3_000;

fn rows_alone(wrong: Wrong) -> Compared<()> {
    let mut comparison = comparison_with(Fault::AboutFeeds(wrong));
    let mut random = Random::new(1);
    feeds::CASES.iter().try_for_each(|case| case(&mut comparison, &mut random))
}

#[test]
fn rows_alone_find_what_is_wrong_about_feeds() {
    for (wrong, row) in SHOWN_AT_RANDOM.into_iter().chain(SHOWN_BY_ROWS_ALONE) {
        let difference = rows_alone(wrong).expect_err("a row tells the fault");
        assert!(difference.starts_with(&format!("{row}, ")), "{wrong:?} is told by {difference}");
    }
}

#[test]
fn random_models_alone_find_what_is_wrong_about_feeds() {
    for (wrong, _) in SHOWN_AT_RANDOM {
        let found = find_on_random_models(Fault::AboutFeeds(wrong), RANDOM_MODELS);
        assert!(found.is_some(), "{wrong:?} was not found");
    }
}

#[test]
fn nothing_is_wrong_about_the_feeds_of_the_reference() {
    let nothing = Fault::AboutFeeds(Wrong::Nothing);
    assert_eq!(rows_alone(Wrong::Nothing), Ok(()));
    assert_eq!(find(nothing, 0..150), None);
    assert_eq!(find_on_random_models(nothing, 150), None);
}
