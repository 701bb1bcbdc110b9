//! Each wrong way to advance channels is told, by a row and by random models alone.

use super::Wrong;
use crate::channels;
use crate::comparison::Compared;
use crate::random::Random;
use crate::wrong_engines::{comparison_with, find, find_on_random_models, Fault};

/// Each with the row that tells it first.
const SHOWN_AT_RANDOM: [(Wrong, &str); 35] = [
    (Wrong::LeftOverIsLost, "left over by a quiet channel"),
    (Wrong::LeftOverOfARefusedChannelIsLost, "left over by a channel that 10 refuses"),
    (Wrong::LeftOverOfTheChannelBeforeOnly, "left over by two channels"),
    (Wrong::RemainderForTheFirst, "a remainder of 1 that is nobody's"),
    (Wrong::ShareRoundedUp, "a remainder of 1 that is nobody's"),
    (Wrong::WholeAllowanceForEach, "left over, and left over again"),
    (Wrong::UndoneInstantIsSpent, "left over by a channel that 13 ends"),
    (Wrong::OutOfStepsBefore15, "15 before 22"),
    (Wrong::JustFittingIsRefused, "1,024 steps that just fit"),
    (Wrong::OneStepOverIsAccepted, "1,024 steps with 1,023 left"),
    (Wrong::StopsBeforeTheBagOnly, "1,024 steps with 1,023 left"),
    (Wrong::BagTakenWith22, "1,024 steps with 1,023 left"),
    (Wrong::OpenMomentAfter22IsTheNext, "1,024 steps with 1,023 left"),
    (Wrong::OpenMomentAfter22IsPastT, "1,024 steps with 1,023 left"),
    (Wrong::OpenMomentAfter22IsAsBefore, "1,024 steps with 1,023 left"),
    (Wrong::QuietWithoutStepsIs22, "no step left, and nothing to do"),
    (Wrong::PlaceByItsLengthAlone, "place: empty past the end"),
    (Wrong::PlaceByASumThatWraps, "place: a sum of 2^64"),
    (Wrong::EmptyBagAnywhere, "place: empty past the end"),
    (Wrong::PlaceBeforeTheTime, "place past the end in channels that 10 and 11 refuse"),
    (Wrong::PlaceRefusesTheWholeCall, "place: empty past the end"),
    (Wrong::RunPartsRoundedUp, "left over by a quiet channel"),
    (Wrong::TracePartsRoundedUp, "left over by a quiet channel"),
    (Wrong::LastChannelHasTheRest, "15 in the last part of the traces, by one byte"),
    (Wrong::ReverseOrder, "left over by a quiet channel"),
    (Wrong::TracePartsSwapped, "left over by a quiet channel"),
    (Wrong::StopsAtTheFirstRefused, "left over by a channel that 10 refuses"),
    (Wrong::BagOfTheFirstForAll, "left over by a channel that 12 refuses"),
    (Wrong::ZerosNotGivenWith21, "21: no channel"),
    (Wrong::ModelBefore21, "21 before the number of the model"),
    (Wrong::CountOfOneByte, "21: 256 + 1 channels"),
    (Wrong::OnlyTheAllowanceIsTested, "21: 9 channels"),
    (Wrong::LeastAllowanceForOne, "21: 1,024 steps for 2 channels"),
    (Wrong::AbsentChannelsAnswer11, "1 channel, nothing to do"),
    (Wrong::NumberOfTheFirstRefused, "left over by a channel that 10 refuses"),
];

/// The same of what shows in an instant that never ends, of which no busy model has one.
const SHOWN_BY_ROWS_ALONE: [(Wrong, &str); 1] = [(Wrong::OutOfStepsBefore13, "13 before 22")];

/// In so many random models a fault must be found. A quarter of them has channels, and few of these are out of
/// steps in the one way that shows it.
const RANDOM_MODELS: u64 = 3_000;

fn rows_alone(wrong: Wrong) -> Compared<()> {
    let mut comparison = comparison_with(Fault::AboutChannels(wrong));
    let mut random = Random::new(1);
    channels::CASES.iter().try_for_each(|case| case(&mut comparison, &mut random))
}

#[test]
fn rows_alone_find_what_is_wrong_about_channels() {
    for (wrong, row) in SHOWN_AT_RANDOM.into_iter().chain(SHOWN_BY_ROWS_ALONE) {
        let difference = rows_alone(wrong).expect_err("a row tells the fault");
        assert!(difference.starts_with(&format!("{row}, ")), "{wrong:?} is told by {difference}");
    }
}

#[test]
fn random_models_alone_find_what_is_wrong_about_channels() {
    for (wrong, _) in SHOWN_AT_RANDOM {
        let found = find_on_random_models(Fault::AboutChannels(wrong), RANDOM_MODELS);
        assert!(found.is_some(), "{wrong:?} was not found");
    }
}

#[test]
fn nothing_is_wrong_about_the_channels_of_the_reference() {
    let nothing = Fault::AboutChannels(Wrong::Nothing);
    assert_eq!(rows_alone(Wrong::Nothing), Ok(()));
    assert_eq!(find(nothing, 0..150), None);
    assert_eq!(find_on_random_models(nothing, 150), None);
}
