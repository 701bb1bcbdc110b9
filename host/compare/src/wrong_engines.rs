//! Engines with one fault each, made of the reference: the comparison must find every one.

mod channels;
mod columns;
mod counts;
mod feeds;
mod lit_rules;
mod ranges;
mod root_bags;
mod stays;

use crate::cases;
use crate::comparison::Comparison;
use crate::counts::Counts;
use crate::engine::{Engine, Form, Subject};
use crate::random::Random;
use crate::{special, worked};
use reference::flat_machine::{changed, Change};
use reference::little_endian::{put_u64, u64_at};
use reference::{Advanced, Asked, Channels, Fed, Reading, Written};
use std::ops::Range;

#[derive(Clone, Copy, Debug, PartialEq, Eq)]
enum Fault {
    None,
    /// The flat machine with the right transition: what wrong ones are put into has no fault of its own.
    NoneInTheFlatMachine,
    RefusesEachFile,
    OnlyMovesTheOpenMoment,
    MakesUpSteps,
    ForgetsTheBag,
    GivesTheBagTwice,
    BeginsTheStayAfreshAtAStray,
    TakesARuleIntoTheSamePhaseForAStray,
    ConfluentWithoutARuleKeepsTheLastMoment {
        order: u8,
    },
    SearchesInOrder1WithWhatAStrayLeft,
    LeavesOutAStepThatChangesNothing,
    DirtiesTheTraceOfAnUndoneInstant,
    ClearsTheRestOfTheTrace,
    ClearsTheRestOfTheRun,
    KeepsTheCountOfARefusedCall,
    NextDueOfARefusalIsNever,
    NextDueNeverIs0,
    PositionOfOneByte,
    FlatteningCopies,
    AboutChannels(channels::Wrong),
    AboutCounts(counts::Wrong),
    AboutFeeds(feeds::Wrong),
    AboutLitRules(lit_rules::Wrong),
    AboutRanges(ranges::Wrong),
    AboutRootBags(root_bags::Wrong),
    AboutRootBagsOfFeeds(root_bags::Wrong),
}

const FAULTS: [Fault; 19] = [
    Fault::RefusesEachFile,
    Fault::OnlyMovesTheOpenMoment,
    Fault::MakesUpSteps,
    Fault::ForgetsTheBag,
    Fault::GivesTheBagTwice,
    Fault::BeginsTheStayAfreshAtAStray,
    Fault::TakesARuleIntoTheSamePhaseForAStray,
    Fault::ConfluentWithoutARuleKeepsTheLastMoment { order: 0 },
    Fault::ConfluentWithoutARuleKeepsTheLastMoment { order: 1 },
    Fault::SearchesInOrder1WithWhatAStrayLeft,
    Fault::LeavesOutAStepThatChangesNothing,
    Fault::DirtiesTheTraceOfAnUndoneInstant,
    Fault::ClearsTheRestOfTheTrace,
    Fault::ClearsTheRestOfTheRun,
    Fault::KeepsTheCountOfARefusedCall,
    Fault::NextDueOfARefusalIsNever,
    Fault::NextDueNeverIs0,
    Fault::PositionOfOneByte,
    Fault::FlatteningCopies,
];

/// What is wrong about stays and strays, the row that tells it first, and in how many random models it
/// must be found. The last one shows only where a stray and the end of its stay fall into one call and a
/// rule's range tells them apart: about one random model in six hundred has that.
const FAULTS_ABOUT_STAYS: [(Fault, &str, u64); 5] = [
    (Fault::BeginsTheStayAfreshAtAStray, "stray in a hold", 100),
    (Fault::TakesARuleIntoTheSamePhaseForAStray, "stray beside a cue with a rule", 100),
    (
        Fault::ConfluentWithoutARuleKeepsTheLastMoment { order: 0 },
        "confluent transition without a rule, either order",
        100,
    ),
    (
        Fault::ConfluentWithoutARuleKeepsTheLastMoment { order: 1 },
        "confluent transition without a rule, either order",
        100,
    ),
    (
        Fault::SearchesInOrder1WithWhatAStrayLeft,
        "order 1 after strays in one call: the whole advance",
        3_000,
    ),
];

struct Faulty(Fault);

/// The transition of an engine that is the flat machine but for that; none for other engines.
fn transition(fault: Fault) -> Option<Box<Change<'static>>> {
    Some(match fault {
        Fault::NoneInTheFlatMachine => Box::new(changed),
        Fault::TakesARuleIntoTheSamePhaseForAStray => Box::new(stays::same_phase_is_a_stray),
        Fault::ConfluentWithoutARuleKeepsTheLastMoment { order } => {
            Box::new(move |brought| stays::confluent_keeps_last_moment(order, brought))
        }
        Fault::SearchesInOrder1WithWhatAStrayLeft => {
            let mut strays = stays::Strays::new();
            Box::new(move |brought| stays::order_1_searches_with_what_is_left(&mut strays, brought))
        }
        _ => return None,
    })
}

impl Engine for Faulty {
    fn check_model(&self, model: &[u8]) -> u64 {
        match self.0 {
            Fault::RefusesEachFile => reference::check_model(model).max(3),
            Fault::AboutRanges(wrong) => wrong.check_model(model),
            _ => reference::check_model(model),
        }
    }

    fn start(&self, model: &[u8], run: &mut [u8]) -> Written {
        let answer = reference::start(model, run);
        if self.0 == Fault::ClearsTheRestOfTheRun && answer.number == 0 {
            run[answer.bytes as usize..].fill(0);
        }
        answer
    }

    fn advance(
        &self,
        model: &[u8],
        run: &mut [u8],
        t: u64,
        bag: &[u8],
        trace: &mut [u8],
        rules: &mut [u8],
    ) -> Advanced {
        let given = match self.0 {
            Fault::ForgetsTheBag if bag.len() <= 48 => Vec::new(),
            Fault::GivesTheBagTwice if bag.len() <= 24 => bag.repeat(2),
            _ => bag.to_vec(),
        };
        let before = run.to_vec();
        let mut answer = match (transition(self.0), self.0) {
            (Some(mut change), _) => {
                stays::advance_by(&mut change, model, run, t, &given, trace, rules)
            }
            (None, Fault::BeginsTheStayAfreshAtAStray) => {
                let (run_here, trace_here) = (&mut before.clone(), &mut trace.to_vec());
                reference::advance(model, run_here, t, &given, trace_here, rules);
                let model = stays::with_rules_for_strays(model);
                reference::advance(&model, run, t, &given, trace, &mut [])
            }
            (None, Fault::AboutCounts(wrong)) => wrong.advance(model, run, t, &given, trace, rules),
            (None, Fault::AboutLitRules(wrong)) => {
                wrong.advance(model, run, t, &given, trace, rules)
            }
            (None, Fault::AboutRanges(wrong)) => wrong.advance(model, run, t, &given, trace, rules),
            (None, Fault::AboutRootBags(wrong)) => {
                wrong.advance(model, run, t, &given, trace, rules)
            }
            (None, _) => reference::advance(model, run, t, &given, trace, rules),
        };
        let used = answer.trace_bytes as usize;
        match (self.0, answer.number) {
            (Fault::OnlyMovesTheOpenMoment, 0) => {
                let open = u64_at(run, 0);
                run.copy_from_slice(&before);
                put_u64(run, 0, open);
            }
            (Fault::MakesUpSteps, 0) => answer.steps = answer.instants,
            (Fault::LeavesOutAStepThatChangesNothing, 0) if run[8..] == before[8..] => {
                answer = Advanced::refused(0);
            }
            (Fault::DirtiesTheTraceOfAnUndoneInstant, 15) if used < trace.len() => trace[used] = 0,
            (Fault::ClearsTheRestOfTheTrace, 0) => trace[used..].fill(0),
            (Fault::KeepsTheCountOfARefusedCall, 11) => answer.instants = 1,
            _ => {}
        }
        answer
    }

    fn advance_feed(
        &self,
        model: &[u8],
        run: &mut [u8],
        end: u64,
        feed: &[u8],
        trace: &mut [u8],
    ) -> Fed {
        match self.0 {
            Fault::AboutFeeds(wrong) => wrong.advance_feed(model, run, end, feed, trace),
            Fault::AboutRootBagsOfFeeds(wrong) => wrong.advance_feed(model, run, end, feed, trace),
            _ => reference::advance_feed(model, run, end, feed, trace),
        }
    }

    fn advance_channels(
        &self,
        model: &[u8],
        runs: &mut [u8],
        asked: &Asked,
        traces: &mut [u8],
    ) -> Channels {
        match self.0 {
            Fault::AboutChannels(wrong) => wrong.advance_channels(model, runs, asked, traces),
            _ => reference::advance_channels(model, runs, asked, traces),
        }
    }

    fn read(&self, model: &[u8], run: &[u8], position: u64) -> Reading {
        let position = match self.0 {
            Fault::PositionOfOneByte => position % 256,
            _ => position,
        };
        let mut answer = reference::read(model, run, position);
        match (self.0, answer.number) {
            (Fault::NextDueOfARefusalIsNever, 10) => answer.next_due = u64::MAX,
            (Fault::NextDueNeverIs0, 0) if answer.next_due == u64::MAX => answer.next_due = 0,
            _ => {}
        }
        answer
    }

    fn flatten(&self, model: &[u8], out: &mut [u8]) -> Written {
        let accepted = reference::check_model(model) == 0;
        if self.0 == Fault::FlatteningCopies && accepted && out.len() >= model.len() {
            out[..model.len()].copy_from_slice(model);
            return Written { number: 0, bytes: model.len() as u64 };
        }
        match self.0 {
            Fault::AboutRanges(wrong) => wrong.flatten(model, out),
            _ => reference::flatten(model, out),
        }
    }
}

/// A comparison with an engine that has this fault.
fn comparison_with(fault: Fault) -> Comparison {
    let engine = Box::new(Faulty(fault));
    let subject = Subject { name: "faulty", engine, form: Form::AsGiven };
    Comparison::new(vec![subject], Vec::new(), Counts::new(cases::names()))
}

/// Runs the worked table and the cases of these numbers, until a difference is found.
fn find(fault: Fault, mut numbers: Range<usize>) -> Option<String> {
    let mut comparison = comparison_with(fault);
    if let Err(difference) = worked::compare(&mut comparison) {
        return Some(difference);
    }
    numbers.find_map(|number| {
        let mut random = Random::for_case(1, number as u64);
        cases::case(&mut comparison, &mut random, number).err()
    })
}

/// Runs calls on so many random models and nothing else, until a difference is found.
fn find_on_random_models(fault: Fault, models: u64) -> Option<String> {
    let mut comparison = comparison_with(fault);
    (0..models).find_map(|number| {
        cases::on_random_model(&mut comparison, &mut Random::for_case(1, number)).err()
    })
}

/// In so many random cases after the fixed ones every fault must be found.
const RANDOM_CASES: usize = 140;

#[test]
fn every_fault_is_found() {
    let about_counts = counts::ALL.map(|(wrong, _)| Fault::AboutCounts(wrong));
    let about_lit_rules = lit_rules::ALL.map(|(wrong, ..)| Fault::AboutLitRules(wrong));
    let about_ranges = ranges::all().map(Fault::AboutRanges);
    for fault in FAULTS.into_iter().chain(about_counts).chain(about_lit_rules).chain(about_ranges) {
        let cases = 0..cases::fixed() + RANDOM_CASES;
        assert!(find(fault, cases).is_some(), "{fault:?} was not found");
    }
}

#[test]
fn random_models_alone_find_what_is_wrong_about_stays() {
    for (fault, _, models) in FAULTS_ABOUT_STAYS {
        assert!(find_on_random_models(fault, models).is_some(), "{fault:?} was not found");
    }
}

#[test]
fn rows_alone_find_what_is_wrong_about_stays() {
    for (fault, row, _) in FAULTS_ABOUT_STAYS {
        let found =
            special::strays::on_each_level(&mut comparison_with(fault), &mut Random::new(1));
        let difference = found.expect_err("a row tells the fault");
        assert!(difference.starts_with(&format!("{row}, ")), "{fault:?} is told by {difference}");
    }
}

#[test]
fn the_reference_itself_has_none() {
    let in_counts = Fault::AboutCounts(counts::Wrong::Nothing);
    let in_root_bags = Fault::AboutRootBags(root_bags::Wrong::Nothing);
    for none in [Fault::None, Fault::NoneInTheFlatMachine, in_counts, in_root_bags] {
        assert_eq!(find(none, 0..150), None);
        assert_eq!(find_on_random_models(none, 150), None);
    }
}
