//! Each wrong reading is told: those of a tick by a row and by random models alone, those of a file by a row and by
//! damage to random models.

use super::files::WrongFile;
use super::Wrong;
use crate::cases;
use crate::comparison::Compared;
use crate::models::damage;
use crate::models::tails::TAILS;
use crate::random::Random;
use crate::special;
use crate::wrong_engines::{comparison_with, find, find_on_random_models, Fault};

/// Each with the row that tells it first, and in how many random models it must be found. Few runs have elapsed
/// times of 32 bits and more.
const OF_TICKS: [(Wrong, &str, u64); 10] = [
    (Wrong::HalfOpenReadAsInclusive, "half-open ranges meet", 200),
    (Wrong::InclusiveReadAsHalfOpen, "inclusive ranges meet", 200),
    (Wrong::LowEndExcludedInstead, "half-open ranges meet", 200),
    (Wrong::BothEndsExcluded, "half-open ranges meet", 200),
    (Wrong::LastTickExcludedToo, "half-open ranges meet", 200),
    (Wrong::NoEndIsAnEnd, "half-open, no end", 1_000),
    (Wrong::NoEndEndsPastItsNumber, "half-open, no end", 1_000),
    (Wrong::ReadHalfOpenInExternalOnly, "half-open, order 1 where they meet", 500),
    (Wrong::ReadHalfOpenInConfluentOnly, "half-open ranges meet", 500),
    (Wrong::ElapsedOf32Bits, "half-open, to 4,294,967,294", 3_000),
];

/// The same of what shows at one elapsed time only, which no random run has.
const OF_ONE_TICK: (Wrong, &str) = (Wrong::NoEndExcludesItsNumber, "half-open, no end");

/// Each with the row that tells it first.
const OF_FLAT_FORMS: [(Wrong, &str); 3] = [
    (Wrong::FlatFormForgetsTheSection, "half-open ranges meet"),
    (Wrong::FlatFormAlwaysHasTheSection, "inclusive ranges meet"),
    (Wrong::FlatFormHasRoomForFourSections, "half-open ranges meet"),
];

/// Each with the file that tells it first.
const OF_FILES: [(Wrong, &str); 23] = [
    (of(WrongFile::LeftOverInsteadOf20), "a file of 32,073 bytes"),
    (of(WrongFile::CutInsteadOf20), "a file of 32,073 bytes"),
    (of(WrongFile::LimitInsteadOf20), "a file of 32,076 bytes and no fifth section"),
    (of(WrongFile::RoutesBefore20), "1,025 routes, and one byte"),
    (of(WrongFile::RoutesBeforeEqualEnds), "1,025 routes, and equal ends"),
    (of(WrongFile::RoutesBeforeLeftOver), "1,025 routes, and bytes left over"),
    (of(WrongFile::LeftOverBeforeEqualEnds), "equal ends, and bytes left over"),
    (of(WrongFile::EqualEndsBefore20), "equal ends, and another byte"),
    (of(WrongFile::EqualEndsBeforeTheCouplings), "equal ends, and a bad coupling"),
    (of(WrongFile::EqualEndsAccepted), "half-open, ends 0 and 0"),
    (of(WrongFile::EqualEndsOfNoEndAccepted), "half-open, ends of no end"),
    (of(WrongFile::EqualEndsOf0Accepted), "half-open, ends 0 and 0"),
    (of(WrongFile::EqualEndsOfTheLastRuleAccepted), "half-open, ends 0 and 0"),
    (of(WrongFile::EqualEndsRefusedInFourSections), "four sections, ends 0 and 0"),
    (of(WrongFile::EqualEndsRefusedBy20), "half-open, ends 0 and 0"),
    (of(WrongFile::FallenEndsRefusedLate), "low end above the high one, and another byte"),
    (of(WrongFile::AnyByteTaken), "fifth section: byte 0"),
    (of(WrongFile::CountOfOneByte), "fifth section: count 257"),
    (of(WrongFile::CountUnread), "fifth section: count 0"),
    (of(WrongFile::SectionAtTheEndOfTheFile), "a file of 32,076 bytes and no fifth section"),
    (of(WrongFile::BytesAfterTheSectionAllowed), "a file of 32,076 bytes"),
    (of(WrongFile::BytesAfterTheSectionRefusedBy20), "a file of 32,076 bytes"),
    (Wrong::AdvanceSays2InsteadOf20, "a file of 32,073 bytes"),
];

const fn of(wrong: WrongFile) -> Wrong {
    Wrong::OfFiles(wrong)
}

/// Every wrong reading.
pub fn all() -> impl Iterator<Item = Wrong> {
    let of_ticks = OF_TICKS.into_iter().map(|(wrong, ..)| wrong).chain([OF_ONE_TICK.0]);
    let others = OF_FLAT_FORMS.into_iter().chain(OF_FILES).map(|(wrong, _)| wrong);
    of_ticks.chain(others)
}

fn rows_alone(wrong: Wrong) -> Compared<()> {
    let mut comparison = comparison_with(Fault::AboutRanges(wrong));
    special::ranges::on_each_level(&mut comparison, &mut Random::new(1))
}

fn files_alone(wrong: Wrong) -> Compared<()> {
    let mut comparison = comparison_with(Fault::AboutRanges(wrong));
    let mut random = Random::new(1);
    TAILS.iter().try_for_each(|file| cases::at_limit(&mut comparison, &mut random, file))
}

/// So many random models are damaged in each way.
const ROUNDS: u64 = 10;

fn damage_alone(wrong: Wrong) -> Compared<()> {
    let mut comparison = comparison_with(Fault::AboutRanges(wrong));
    (0..ROUNDS).try_for_each(|round| {
        let mut random = Random::for_case(1, round);
        let damages = damage::all();
        damages.iter().try_for_each(|kind| cases::damaged(&mut comparison, &mut random, kind))
    })
}

fn is_told_by(wrong: Wrong, row: &str, found: Compared<()>) {
    let difference = found.expect_err("a row tells the fault");
    assert!(difference.starts_with(&format!("{row}, ")), "{wrong:?} is told by {difference}");
}

#[test]
fn rows_alone_find_what_is_wrong_about_ranges() {
    let of_ticks = OF_TICKS.into_iter().map(|(wrong, row, _)| (wrong, row));
    for (wrong, row) in of_ticks.chain([OF_ONE_TICK]).chain(OF_FLAT_FORMS) {
        is_told_by(wrong, row, rows_alone(wrong));
    }
}

#[test]
fn files_alone_find_what_is_wrong_about_the_fifth_section() {
    for (wrong, file) in OF_FILES {
        is_told_by(wrong, file, files_alone(wrong));
    }
}

#[test]
fn damage_alone_finds_what_is_wrong_about_the_fifth_section() {
    for (wrong, _) in OF_FILES {
        assert!(damage_alone(wrong).is_err(), "{wrong:?} was not found");
    }
}

#[test]
fn random_models_alone_find_what_is_wrong_about_ranges() {
    let of_flat_forms = OF_FLAT_FORMS.into_iter().map(|(wrong, _)| (wrong, 100));
    let of_ticks = OF_TICKS.into_iter().map(|(wrong, _, models)| (wrong, models));
    for (wrong, models) in of_ticks.chain(of_flat_forms) {
        let found = find_on_random_models(Fault::AboutRanges(wrong), models);
        assert!(found.is_some(), "{wrong:?} was not found");
    }
}

#[test]
fn nothing_is_wrong_about_the_ranges_of_the_reference() {
    for nothing in [Wrong::Nothing, of(WrongFile::Nothing)] {
        assert_eq!(rows_alone(nothing), Ok(()));
        assert_eq!(files_alone(nothing), Ok(()));
        assert_eq!(damage_alone(nothing), Ok(()));
        assert_eq!(find(Fault::AboutRanges(nothing), 0..150), None);
        assert_eq!(find_on_random_models(Fault::AboutRanges(nothing), 150), None);
    }
}
