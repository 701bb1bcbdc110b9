//! The root coordinator: it keeps the root's state and the moment of its last event, and takes the
//! steps of an instant.

use crate::limits;
use crate::lit_rules::{LitRules, Told};
use crate::nest;
use crate::observed::Observed;
use crate::records::Message;
use crate::resultant::{Bag, Devs, State};
use crate::saved_run::AtomicRun;
use crate::trace;

pub struct RootCoordinator<'n, 'm> {
    root: &'n Devs<'m>,
    atomics: usize,
    state: State,
    last: u64,
}

/// An instant as it was taken: whether something is still due there, where it leads, its steps and records,
/// and the rules that it lit.
pub struct Instant<'n, 'm> {
    pub still_due: bool,
    pub after: RootCoordinator<'n, 'm>,
    pub steps: u64,
    pub records: Vec<u8>,
    pub lit: LitRules,
}

impl<'n, 'm> RootCoordinator<'n, 'm> {
    pub fn load(root: &'n Devs<'m>, atomics: &[AtomicRun]) -> Self {
        let (state, last) = nest::load(root, atomics);
        RootCoordinator { root, atomics: atomics.len(), state, last }
    }

    /// How many atomics the model has.
    pub fn atomics(&self) -> usize {
        self.atomics
    }

    pub fn save(&self, atomics: &mut [AtomicRun]) {
        nest::save(self.root, &self.state, self.last, atomics);
    }

    /// The whole model's next due moment; none for never.
    pub fn due(&self) -> Option<u64> {
        self.root.time_advance(&self.state).map(|advance| self.last + advance)
    }

    /// One step at a moment where something is due or the bag is not empty. Answers the root's output bag,
    /// and what the transitions told.
    fn step(&mut self, now: u64, given: &[Message], observed: &mut Observed) -> (Bag, Vec<Told>) {
        let imminent = self.due() == Some(now);
        let output = if imminent { self.root.output(&self.state) } else { Bag::new() };
        let changed = match (imminent, given.is_empty()) {
            (true, true) => self.root.internal(&self.state, observed),
            (false, false) => self.root.external(&self.state, now - self.last, given, observed),
            (true, false) => self.root.confluent(&self.state, given, observed),
            (false, true) => unreachable!("no step is taken"),
        };
        self.state = changed.state;
        self.last = now;
        (output, changed.told)
    }

    /// All steps at one moment, on a copy: the caller decides whether the instant stands.
    pub fn instant(&self, now: u64, given: &[Message], observed: &mut Observed) -> Instant<'n, 'm> {
        let mut copy = RootCoordinator { state: self.state.clone(), ..*self };
        let mut lit = LitRules::none(self.atomics);
        let mut steps = 0;
        let mut records = Vec::new();
        let mut largest_root_bag = 0;
        let mut bag = given;
        observed.given_where_due += u64::from(!given.is_empty() && self.due() == Some(now));
        while steps < limits::STEPS_OF_AN_INSTANT && (!bag.is_empty() || copy.due() == Some(now)) {
            let (output, told) = copy.step(now, bag, observed);
            lit.add(told);
            largest_root_bag = largest_root_bag.max(output.len());
            if !output.is_empty() {
                trace::write_record(&mut records, now, steps, output);
            }
            steps += 1;
            bag = &[];
        }
        let still_due = copy.due() == Some(now);
        observed.instant(steps, still_due, !given.is_empty(), largest_root_bag);
        Instant { still_due, after: copy, steps, records, lit }
    }
}
