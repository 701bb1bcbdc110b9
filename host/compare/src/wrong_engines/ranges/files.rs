//! Wrong looks at what follows a file's couplings: what passes for a fifth section, which ranges it forbids, and
//! the order of the numbers. The four sections before it are judged by the reference, without what follows.

use crate::ranges::after_the_couplings;
use reference::limits::UNBOUNDED;
use reference::little_endian::{u16_at, u32_at};
use reference::records::{Component, Phase, Rule};

#[derive(Clone, Copy, Debug, PartialEq, Eq)]
pub enum WrongFile {
    Nothing,
    LeftOverInsteadOf20,
    CutInsteadOf20,
    LimitInsteadOf20,
    RoutesBefore20,
    RoutesBeforeEqualEnds,
    RoutesBeforeLeftOver,
    LeftOverBeforeEqualEnds,
    EqualEndsBefore20,
    EqualEndsBeforeTheCouplings,
    EqualEndsAccepted,
    EqualEndsOfNoEndAccepted,
    EqualEndsOf0Accepted,
    EqualEndsOfTheLastRuleAccepted,
    EqualEndsRefusedInFourSections,
    EqualEndsRefusedBy20,
    FallenEndsRefusedLate,
    AnyByteTaken,
    CountOfOneByte,
    CountUnread,
    SectionAtTheEndOfTheFile,
    BytesAfterTheSectionAllowed,
    BytesAfterTheSectionRefusedBy20,
}

/// The elapsed ends of a file's rules, and where each stands.
fn ends_of(file: &[u8]) -> Vec<(usize, u32, u32)> {
    let count = |at: usize| usize::from(u16_at(file, at));
    let phases = 2 + Component::BYTES * count(0);
    let rules = phases + 2 + Phase::BYTES * count(phases);
    let places = (0..count(rules)).map(|rule| rules + 2 + Rule::BYTES * rule);
    places.map(|at| (at, u32_at(file, at + 10), u32_at(file, at + 14))).collect()
}

/// The four sections with every range from 0 to no end: what is left to be refused is not about ranges.
fn with_any_range(four: &[u8]) -> Vec<u8> {
    let mut file = four.to_vec();
    for (at, ..) in ends_of(four) {
        file[at + 10..at + 14].fill(0);
        file[at + 14..at + 18].fill(255);
    }
    file
}

impl WrongFile {
    /// The bytes of what passes for a fifth section at the front of these; none where nothing does.
    fn section(self, tail: &[u8]) -> Option<usize> {
        let passes = match (self, tail) {
            (WrongFile::AnyByteTaken, [1, 0, _, ..]) => true,
            (WrongFile::CountOfOneByte, [1, _, 2, ..]) => true,
            (WrongFile::CountUnread, [_, _, 2, ..]) => true,
            (WrongFile::SectionAtTheEndOfTheFile, [.., 1, 0, 2]) => return Some(tail.len()),
            (_, [1, 0, 2, ..]) => true,
            _ => false,
        };
        passes.then_some(3)
    }

    fn forbids(self, ends: &[(usize, u32, u32)]) -> bool {
        let judged = match self {
            WrongFile::EqualEndsOfTheLastRuleAccepted => &ends[..ends.len().saturating_sub(1)],
            _ => ends,
        };
        judged.iter().any(|&(_, low, high)| match self {
            WrongFile::EqualEndsAccepted => false,
            WrongFile::EqualEndsOfNoEndAccepted => low == high && high != UNBOUNDED,
            WrongFile::EqualEndsOf0Accepted => low == high && high != 0,
            WrongFile::FallenEndsRefusedLate => low >= high,
            _ => low == high,
        })
    }

    /// The number for bytes that are no fifth section.
    fn no_section(self, tail: &[u8]) -> u64 {
        let count = tail.get(..2).map(|bytes| usize::from(u16_at(bytes, 0)));
        let is_cut = count.is_none_or(|count| tail.len() < 2 + count);
        match self {
            WrongFile::LeftOverInsteadOf20 => 2,
            WrongFile::CutInsteadOf20 if is_cut => 1,
            WrongFile::LimitInsteadOf20 if count.is_some_and(|count| count > 1) => 3,
            _ => 20,
        }
    }

    pub fn check_model(self, file: &[u8]) -> u64 {
        let Some(tail) = after_the_couplings(file) else {
            return reference::check_model(file);
        };
        let four = &file[..file.len() - tail.len()];
        let mut number = reference::check_model(four);
        if number == 7 && self == WrongFile::FallenEndsRefusedLate {
            number = reference::check_model(&with_any_range(four));
        }
        let is_half_open = self.section(tail).is_some();
        match (self, number) {
            (_, 0 | 9) => self.number_of_tail(four, tail, number),
            (WrongFile::EqualEndsBeforeTheCouplings, 8)
                if is_half_open && self.forbids(&ends_of(four)) =>
            {
                7
            }
            _ => number,
        }
    }

    /// The number of a file whose four sections are in order but for their routes.
    fn number_of_tail(self, four: &[u8], tail: &[u8], routes: u64) -> u64 {
        let section = self.section(tail);
        let is_judged = match self {
            WrongFile::EqualEndsRefusedInFourSections => true,
            WrongFile::EqualEndsBefore20 => !tail.is_empty(),
            WrongFile::FallenEndsRefusedLate => true,
            _ => section.is_some(),
        };
        let no_section = (self.no_section(tail), !tail.is_empty() && section.is_none());
        let ends = match self {
            WrongFile::EqualEndsRefusedBy20 => 20,
            _ => 7,
        };
        let ends = (ends, is_judged && self.forbids_here(four, section));
        let is_left_over = section.is_some_and(|section| tail.len() > section);
        let left_over = match self {
            WrongFile::BytesAfterTheSectionAllowed => (2, false),
            WrongFile::BytesAfterTheSectionRefusedBy20 => (20, is_left_over),
            _ => (2, is_left_over),
        };
        let routes = (9, routes == 9);
        let checks = match self {
            WrongFile::RoutesBefore20 => [routes, no_section, ends, left_over],
            WrongFile::RoutesBeforeEqualEnds => [no_section, routes, ends, left_over],
            WrongFile::RoutesBeforeLeftOver => [no_section, ends, routes, left_over],
            WrongFile::LeftOverBeforeEqualEnds => [no_section, left_over, ends, routes],
            WrongFile::EqualEndsBefore20 => [ends, no_section, left_over, routes],
            _ => [no_section, ends, left_over, routes],
        };
        checks.into_iter().find(|(_, is_so)| *is_so).map_or(0, |(number, _)| number)
    }

    /// Without a fifth section only a low end above the high one is refused late.
    fn forbids_here(self, four: &[u8], section: Option<usize>) -> bool {
        let ends = ends_of(four);
        let falls = ends.iter().any(|&(_, low, high)| low > high);
        match (self, section) {
            (WrongFile::FallenEndsRefusedLate, None) => falls,
            _ => self.forbids(&ends),
        }
    }
}
