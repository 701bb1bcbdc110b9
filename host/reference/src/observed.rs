//! What a run met on its way, so that a comparison can tell which cases it has really seen.

use crate::atomic::{Atomic, AtomicState, Led};
use crate::limits;
use crate::lit_rules::LastInstant;
use crate::range_ends::RangeEnds;

#[derive(Clone, Copy, Debug, Default, PartialEq, Eq)]
pub struct Observed {
    pub internal: u64,
    pub external_by_rule: u64,
    /// External transitions for which no rule held: stray cues.
    pub external_without_rule: u64,
    /// The same where the stay had lasted for some time, so that a stay begun afresh would show: by the
    /// atomic's ancestors, those with one ancestor first.
    pub strays: [u64; limits::ANCESTORS],
    /// External transitions by a rule into the same phase, after some time too.
    pub external_into_same_phase: u64,
    pub confluent_internal_first: u64,
    pub confluent_external_first: u64,
    /// Confluent transitions whose external part had no rule, at the end of a stay that was not 0.
    pub confluent_internal_first_without_rule: u64,
    pub confluent_external_first_without_rule: u64,
    /// Transitions that ended a stay during which a stray cue had come earlier in the same call.
    pub internal_after_stray: u64,
    pub external_by_rule_after_stray: u64,
    pub confluent_internal_first_after_stray: u64,
    pub confluent_external_first_after_stray: u64,
    pub unchanged: u64,
    /// The most steps of an instant that was done.
    pub most_steps: u64,
    /// The most steps of an instant that was done and began with a given bag.
    pub most_steps_with_bag: u64,
    /// Instants that began with a given bag where something was due as well.
    pub given_where_due: u64,
    /// Instants that still had something due after the last step allowed.
    pub endless_instants: u64,
    /// The same, of instants that began with a given bag.
    pub endless_instants_with_bag: u64,
    pub largest_root_bag: usize,
    pub largest_atomic_bag: usize,
    /// The largest bag for which a rule decided.
    pub largest_decided_bag: usize,
    pub longest_elapsed: u64,
    /// The longest elapsed time for which a rule decided.
    pub longest_decided_elapsed: u64,
    /// The deepest atomic that had a transition, counted in ancestors.
    pub deepest_transition: usize,
    /// External transitions of a coupled component below the root whose bag reached no atomic.
    pub bags_lost_inside: u64,
    pub range_ends: RangeEnds,
    /// The last instant done in the last call.
    pub last_instant: LastInstant,
}

impl Observed {
    /// The transitions of atomics.
    pub fn transitions(&self) -> u64 {
        let external = self.external_by_rule + self.external_without_rule;
        let confluent = self.confluent_internal_first + self.confluent_external_first;
        self.internal + external + confluent
    }

    /// An internal transition of an atomic with so many ancestors.
    pub fn internal(&mut self, ancestors: usize, before: AtomicState) {
        self.internal += 1;
        self.internal_after_stray += u64::from(before.spent > 0);
        self.deepest_transition = self.deepest_transition.max(ancestors);
    }

    /// An external transition, with the time since the atomic's last event and where it led.
    pub fn external(&mut self, ancestors: usize, before: AtomicState, elapsed: u64, led: &Led) {
        let after_some_time = u64::from(before.spent + elapsed > 0);
        if led.rule.is_none() {
            self.external_without_rule += 1;
            self.strays[ancestors - 1] += after_some_time;
        } else {
            self.external_by_rule += 1;
            self.external_by_rule_after_stray += u64::from(before.spent > 0);
            if led.state.phase == before.phase {
                self.external_into_same_phase += after_some_time;
            }
        }
        self.deepest_transition = self.deepest_transition.max(ancestors);
    }

    /// A confluent transition of an atomic, and where its external part led.
    pub fn confluent(&mut self, ancestors: usize, atomic: &Atomic, before: AtomicState, led: &Led) {
        let after_some_time = atomic.advance(before.phase) != Some(0);
        let without_rule = u64::from(after_some_time && led.rule.is_none());
        let after_stray = u64::from(before.spent > 0);
        if atomic.internal_first() {
            self.confluent_internal_first += 1;
            self.confluent_internal_first_without_rule += without_rule;
            self.confluent_internal_first_after_stray += after_stray;
        } else {
            self.confluent_external_first += 1;
            self.confluent_external_first_without_rule += without_rule;
            self.confluent_external_first_after_stray += after_stray;
        }
        self.deepest_transition = self.deepest_transition.max(ancestors);
    }

    /// The external part of an atomic's transition, and whether a rule decided it.
    pub fn external_part(&mut self, elapsed: u64, bag: usize, decided: bool) {
        self.largest_atomic_bag = self.largest_atomic_bag.max(bag);
        self.longest_elapsed = self.longest_elapsed.max(elapsed);
        if decided {
            self.largest_decided_bag = self.largest_decided_bag.max(bag);
            self.longest_decided_elapsed = self.longest_decided_elapsed.max(elapsed);
        }
    }

    /// An instant that was tried: whether it was endless, and whether it began with a given bag.
    pub fn instant(&mut self, steps: u64, endless: bool, with_bag: bool, root_bag: usize) {
        self.largest_root_bag = self.largest_root_bag.max(root_bag);
        if endless {
            self.endless_instants += 1;
            self.endless_instants_with_bag += u64::from(with_bag);
        } else {
            self.most_steps = self.most_steps.max(steps);
            if with_bag {
                self.most_steps_with_bag = self.most_steps_with_bag.max(steps);
            }
        }
    }
}
