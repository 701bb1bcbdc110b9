//! Which rules decided: what the transitions of a step tell of themselves, and what an instant lights.

use crate::limits::{ANCESTORS, NO_RULE};

/// What one atomic's transition tells; the levels above pass it up.
#[derive(Clone, Copy, Debug, PartialEq, Eq)]
pub struct Told {
    pub rank: usize,
    pub ancestors: usize,
    pub transition: Transition,
}

/// A transition, with the position of the rule that decided its external part.
#[derive(Clone, Copy, Debug, PartialEq, Eq)]
pub enum Transition {
    Internal,
    External { rule: Option<usize> },
    Confluent { internal_first: bool, rule: Option<usize> },
}

/// The bytes of a rules table with so many atomics.
pub fn length(atomics: usize) -> usize {
    2 * atomics
}

/// What an instant has lit so far, by rank.
#[derive(Clone, Debug)]
pub struct LitRules {
    atomics: Vec<OfAtomic>,
}

#[derive(Clone, Copy, Debug, Default)]
struct OfAtomic {
    /// The transition with its last external part.
    last_part: Option<Told>,
    parts: u64,
    /// Whether an earlier part had a rule, and whether one had none.
    rule_before: bool,
    stray_before: bool,
    /// Whether it had an internal transition after its last external part.
    internal_since: bool,
}

impl OfAtomic {
    /// What decided its last external part: none too where it had no such part.
    fn rule(&self) -> Option<usize> {
        match self.last_part?.transition {
            Transition::Internal => unreachable!("an internal transition has no external part"),
            Transition::External { rule } | Transition::Confluent { rule, .. } => rule,
        }
    }

    fn add(&mut self, told: Told) {
        if told.transition == Transition::Internal {
            self.internal_since = true;
            return;
        }
        self.rule_before |= self.rule().is_some();
        self.stray_before |= self.parts > 0 && self.rule().is_none();
        self.internal_since = false;
        self.parts += 1;
        self.last_part = Some(told);
    }
}

impl LitRules {
    /// An instant begins with nothing lit.
    pub fn none(atomics: usize) -> LitRules {
        LitRules { atomics: vec![OfAtomic::default(); atomics] }
    }

    /// Adds what the transitions of a step have told.
    pub fn add(&mut self, step: Vec<Told>) {
        step.into_iter().for_each(|told| self.atomics[told.rank].add(told));
    }

    /// The position of each atomic's rule.
    pub fn rules(&self) -> impl Iterator<Item = Option<usize>> + '_ {
        self.atomics.iter().map(OfAtomic::rule)
    }

    /// Writes the entries over the front of a lent table; one that is too short for all of them stays.
    pub fn write(&self, table: &mut [u8]) {
        if table.len() < length(self.atomics.len()) {
            return;
        }
        for (entry, rule) in table.chunks_exact_mut(2).zip(self.rules()) {
            let position = rule.map_or(NO_RULE, |rule| rule as u16);
            entry.copy_from_slice(&position.to_le_bytes());
        }
    }
}

/// What the last instant done in a call had in it, counted in atomics.
#[derive(Clone, Copy, Debug, Default, PartialEq, Eq)]
pub struct LastInstant {
    /// With a rule lit, by ancestors, those with one ancestor first.
    pub lit: [u64; ANCESTORS],
    pub highest_position: usize,
    pub no_external_part: u64,
    pub several_external_parts: u64,
    pub stray_after_rule: u64,
    pub rule_after_stray: u64,
    pub internal_after_rule: u64,
    /// Transitions with the last external part, of each order: with and without a rule.
    pub confluent: [[u64; 2]; 2],
    pub external_without_rule: u64,
    /// With a rule in an earlier instant of the call, and none in the last one.
    pub rule_of_earlier_instant: u64,
    /// Entries that the instant left undone would have changed.
    pub dropped: u64,
}

impl LastInstant {
    /// Looks at the last instant of a call, before which these atomics had been lit.
    pub fn new(last: &LitRules, lit_earlier: &[bool]) -> LastInstant {
        let mut seen = LastInstant::default();
        for (atomic, &lit_earlier) in last.atomics.iter().zip(lit_earlier) {
            seen.count(atomic, lit_earlier);
        }
        seen
    }

    fn count(&mut self, atomic: &OfAtomic, lit_earlier: bool) {
        let rule = atomic.rule();
        self.several_external_parts += u64::from(atomic.parts > 1);
        self.stray_after_rule += u64::from(atomic.rule_before && rule.is_none());
        self.rule_after_stray += u64::from(atomic.stray_before && rule.is_some());
        self.internal_after_rule += u64::from(atomic.internal_since && rule.is_some());
        self.rule_of_earlier_instant += u64::from(lit_earlier && rule.is_none());
        let Some(part) = atomic.last_part else {
            self.no_external_part += 1;
            return;
        };
        if let Some(position) = rule {
            self.lit[part.ancestors - 1] += 1;
            self.highest_position = self.highest_position.max(position);
        }
        match part.transition {
            Transition::Confluent { internal_first, rule } => {
                self.confluent[usize::from(!internal_first)][usize::from(rule.is_none())] += 1;
            }
            _ => self.external_without_rule += u64::from(rule.is_none()),
        }
    }

    /// Looks at the instant that was left undone after this one.
    pub fn left_undone(&mut self, last: &LitRules, undone: &LitRules) {
        self.dropped =
            last.rules().zip(undone.rules()).filter(|(kept, new)| kept != new).count() as u64;
    }
}
