//! Wrong tables of the rules that decided, made of the flat machine, which is right in all else.

use super::stays::advance_by;
use super::{comparison_with, find_on_random_models, Fault};
use crate::random::Random;
use crate::special;
use reference::decode::decode;
use reference::flat_machine::{changed, After, Brought};
use reference::limits::NO_RULE;
use reference::lit_rules;
use reference::model::Model;
use reference::Advanced;
use std::collections::BTreeMap;

#[derive(Clone, Copy, Debug, PartialEq, Eq)]
pub enum Wrong {
    KeepsAnEarlierInstant,
    KeepsTheFirstPart,
    KeepsTheLastStepOnly,
    InternalErases,
    StrayErasesNothing,
    ConfluentIsNotTold { order: u8 },
    PositionOfOneByte,
    PositionAmongItsOwnRules,
    HighByteFirst,
    InTreeOrder,
    ZeroesTheRest,
    FillsAShortTable,
    RefusesAShortTable,
    ClearsBeforeTheChecks,
    ClearsWhereNothingIsDue,
    ClearsBeforeAnInstantLeftUndone,
    TellsTheInstantLeftUndone,
    TellsNothingAfterAnInstantLeftUndone,
}

/// Each with the row that tells it first, and in how many random models it must be found. Few of them have
/// over 256 rules, and few calls end in an instant left undone after others.
pub const ALL: [(Wrong, &str, u64); 19] = [
    (Wrong::KeepsAnEarlierInstant, "lit in an earlier instant only", 100),
    (Wrong::KeepsTheFirstPart, "lit, then a stray in the same instant", 100),
    (Wrong::KeepsTheLastStepOnly, "lit, then an internal transition in the same instant", 100),
    (Wrong::InternalErases, "lit, then an internal transition in the same instant", 100),
    (Wrong::StrayErasesNothing, "lit, then a stray in the same instant", 100),
    (
        Wrong::ConfluentIsNotTold { order: 0 },
        "lit, then a confluent transition without a rule in the same instant",
        100,
    ),
    (
        Wrong::ConfluentIsNotTold { order: 1 },
        "lit, then a confluent transition without a rule in the same instant",
        100,
    ),
    (Wrong::PositionOfOneByte, "lit: position 256", 300),
    (Wrong::PositionAmongItsOwnRules, "lit by a rule", 100),
    (Wrong::HighByteFirst, "lit by a rule", 100),
    (Wrong::InTreeOrder, "lit by a rule", 100),
    (Wrong::ZeroesTheRest, "lit by a rule", 100),
    (Wrong::FillsAShortTable, "lit by a rule", 100),
    (Wrong::RefusesAShortTable, "lit by a rule", 100),
    (Wrong::ClearsBeforeTheChecks, "refused, nothing lit", 100),
    (Wrong::ClearsWhereNothingIsDue, "lit by the call before", 100),
    (
        Wrong::ClearsBeforeAnInstantLeftUndone,
        "nothing done before the instant that passes the trace's end",
        100,
    ),
    (Wrong::TellsTheInstantLeftUndone, "lit before the instant that passes the trace's end", 200),
    (
        Wrong::TellsNothingAfterAnInstantLeftUndone,
        "lit before the instant that passes the trace's end",
        200,
    ),
];

/// What an engine has noted of the instants of one call, by rank.
#[derive(Default)]
struct Noted {
    moment: Option<u64>,
    /// What the instant at that moment has lit so far, and what any instant has.
    here: BTreeMap<usize, u16>,
    ever: BTreeMap<usize, u16>,
}

impl Noted {
    fn begin_step(&mut self, moment: u64) {
        if self.moment.replace(moment) != Some(moment) {
            self.here.clear();
        }
    }

    fn note(&mut self, rank: usize, rule: Option<u16>) {
        if let Some(rule) = rule {
            self.here.insert(rank, rule);
            self.ever.insert(rank, rule);
        }
    }
}

impl Wrong {
    /// What a step tells of an atomic, where the right engine tells `rule`.
    fn told(
        self,
        model: &Model,
        noted: &Noted,
        brought: &Brought,
        rule: Option<u16>,
    ) -> Option<u16> {
        let Brought { atomic, rank, is_due, bag, .. } = *brought;
        match self {
            Wrong::KeepsAnEarlierInstant => rule.or(noted.ever.get(&rank).copied()),
            Wrong::KeepsTheFirstPart => noted.here.get(&rank).copied().or(rule),
            Wrong::KeepsTheLastStepOnly => rule.or(Some(NO_RULE)),
            Wrong::InternalErases if is_due && bag.is_empty() => Some(NO_RULE),
            Wrong::StrayErasesNothing => rule.filter(|&rule| rule != NO_RULE),
            Wrong::ConfluentIsNotTold { order } => {
                let is_told = !is_due || atomic.internal_first() != (order == 0);
                rule.filter(|_| is_told)
            }
            _ if rule == Some(NO_RULE) => rule,
            Wrong::PositionOfOneByte => rule.map(|position| position % 256),
            Wrong::PositionAmongItsOwnRules => rule.map(|position| {
                let component = model.atomics()[rank];
                let earlier = model.rules[..usize::from(position)].iter();
                earlier.filter(|rule| usize::from(rule.component) == component).count() as u16
            }),
            _ => rule,
        }
    }

    /// What becomes of a table that is long enough, after the call.
    fn finish(
        self,
        model: &Model,
        noted: &Noted,
        answer: &Advanced,
        lent: &[u8],
        rules: &mut [u8],
    ) {
        let needed = lit_rules::length(model.atomics().len());
        let (entries, rest) = rules.split_at_mut(needed);
        let is_written = answer.instants > 0;
        let left_undone = matches!(answer.number, 13..=15);
        match self {
            Wrong::HighByteFirst if is_written => {
                entries.chunks_exact_mut(2).for_each(|entry| entry.reverse());
            }
            Wrong::InTreeOrder if is_written => {
                let in_file_order = entries.to_vec();
                for (entry, rank) in entries.chunks_exact_mut(2).zip(ranks_in_tree_order(model)) {
                    entry.copy_from_slice(&in_file_order[2 * rank..2 * rank + 2]);
                }
            }
            Wrong::ZeroesTheRest if is_written => rest.fill(0),
            Wrong::ClearsBeforeTheChecks if matches!(answer.number, 10..=12) => entries.fill(255),
            Wrong::ClearsWhereNothingIsDue if !is_written && answer.number == 0 => {
                entries.fill(255);
            }
            Wrong::ClearsBeforeAnInstantLeftUndone if !is_written && left_undone => {
                entries.fill(255);
            }
            Wrong::TellsTheInstantLeftUndone if is_written && left_undone => {
                for (rank, entry) in entries.chunks_exact_mut(2).enumerate() {
                    let rule = noted.here.get(&rank).copied().unwrap_or(NO_RULE);
                    entry.copy_from_slice(&rule.to_le_bytes());
                }
            }
            Wrong::TellsNothingAfterAnInstantLeftUndone if left_undone => {
                rules.copy_from_slice(lent);
            }
            _ => {}
        }
    }

    pub fn advance(
        self,
        file: &[u8],
        run: &mut [u8],
        t: u64,
        bag: &[u8],
        trace: &mut [u8],
        rules: &mut [u8],
    ) -> Advanced {
        let Ok(model) = decode(file) else {
            return reference::advance(file, run, t, bag, trace, rules);
        };
        let lent = rules.to_vec();
        let needed = lit_rules::length(model.atomics().len());
        let mut noted = Noted::default();
        let mut change = |brought: &Brought| {
            let After { entry, rule } = changed(brought);
            noted.begin_step(brought.moment);
            let told = self.told(&model, &noted, brought, rule);
            noted.note(brought.rank, rule);
            After { entry, rule: told }
        };
        if lent.len() >= needed {
            let answer = advance_by(&mut change, file, run, t, bag, trace, rules);
            self.finish(&model, &noted, &answer, &lent, rules);
            return answer;
        }
        match self {
            Wrong::RefusesAShortTable => Advanced::refused(15),
            Wrong::FillsAShortTable => {
                let mut long = lent.clone();
                long.resize(needed, 0);
                let answer = advance_by(&mut change, file, run, t, bag, trace, &mut long);
                rules.copy_from_slice(&long[..lent.len()]);
                answer
            }
            _ => advance_by(&mut change, file, run, t, bag, trace, rules),
        }
    }
}

/// The ranks of the atomics as a walk from the root meets them.
fn ranks_in_tree_order(model: &Model) -> Vec<usize> {
    let atomics = model.atomics();
    let mut ranks = Vec::new();
    let mut waiting = vec![0];
    while let Some(component) = waiting.pop() {
        ranks.extend(atomics.iter().position(|&atomic| atomic == component));
        waiting.extend(model.children(component).into_iter().rev());
    }
    ranks
}

#[test]
fn random_models_alone_find_what_is_wrong_about_lit_rules() {
    for (wrong, _, models) in ALL {
        let found = find_on_random_models(Fault::AboutLitRules(wrong), models);
        assert!(found.is_some(), "{wrong:?} was not found");
    }
}

#[test]
fn rows_alone_find_what_is_wrong_about_lit_rules() {
    for (wrong, row, _) in ALL {
        let mut comparison = comparison_with(Fault::AboutLitRules(wrong));
        let mut random = Random::new(1);
        let found = special::lit_rules::on_each_level(&mut comparison, &mut random)
            .and_then(|()| special::lit_rules::positions(&mut comparison, &mut random));
        let difference = found.expect_err("a row tells the fault");
        assert!(difference.starts_with(&format!("{row}, ")), "{wrong:?} is told by {difference}");
    }
}
