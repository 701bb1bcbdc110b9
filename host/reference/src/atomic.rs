//! One atomic: what its tables say of a phase, and the Parallel DEVS model that they make of it.

use crate::limits;
use crate::model::Model;
use crate::ranges::Ranges;
use crate::records::{Message, Phase, Rule};

pub struct Atomic<'m> {
    phases: &'m [Phase],
    internal_first: bool,
    /// The rules that name this atomic with their positions in the file, in file order.
    rules: Vec<(usize, &'m Rule)>,
    ranges: Ranges,
}

/// The sequential state of an atomic. To Parallel DEVS a bag for which no rule holds is an event like
/// any other, after which the elapsed time counts from 0; but the stay in the phase goes on, so that
/// the state keeps how much of it had gone by at the last event.
#[derive(Clone, Copy, Debug, PartialEq, Eq)]
pub struct AtomicState {
    pub phase: u8,
    pub spent: u64,
}

impl AtomicState {
    /// A stay that begins now.
    pub fn afresh(phase: u8) -> AtomicState {
        AtomicState { phase, spent: 0 }
    }
}

/// Where an external part led, and the position of the rule that decided it.
#[derive(Clone, Copy, Debug, PartialEq, Eq)]
pub struct Led {
    pub state: AtomicState,
    pub rule: Option<usize>,
}

/// What the tables say of a phase.
impl<'m> Atomic<'m> {
    pub fn new(model: &'m Model, component: usize) -> Atomic<'m> {
        let names_this = |rule: &Rule| usize::from(rule.component) == component;
        Atomic {
            phases: model.phases_of(component),
            internal_first: model.components[component].order == 0,
            rules: model.rules.iter().enumerate().filter(|(_, rule)| names_this(rule)).collect(),
            ranges: model.ranges,
        }
    }

    pub fn internal_first(&self) -> bool {
        self.internal_first
    }

    /// How its rules' elapsed ranges are read.
    pub fn ranges(&self) -> Ranges {
        self.ranges
    }

    /// How long the phase lasts; none for never.
    pub fn advance(&self, phase: u8) -> Option<u64> {
        let advance = self.phases[usize::from(phase)].advance;
        (advance != limits::UNBOUNDED).then(|| u64::from(advance))
    }

    pub fn outputs(&self, phase: u8) -> &'m [Message] {
        self.phases[usize::from(phase)].outputs()
    }

    pub fn next_phase(&self, phase: u8) -> u8 {
        self.phases[usize::from(phase)].next_phase
    }

    /// "The first rule in file order whose conditions all hold decides": its position, and where it leads.
    pub fn deciding_rule(&self, phase: u8, elapsed: u64, bag: &[Message]) -> Option<(usize, u8)> {
        let in_range = |rule: &Rule| self.ranges.holds(rule, elapsed);
        let deciding = self.first_rule(phase, bag, in_range);
        deciding.map(|position| (position, self.rule(position).next_phase))
    }

    /// The position of the first rule of a phase whose range is as asked and for which the bag has enough.
    pub fn first_rule(
        &self,
        phase: u8,
        bag: &[Message],
        range: impl Fn(&Rule) -> bool,
    ) -> Option<usize> {
        let holds = |rule: &Rule| rule.phase == phase && range(rule) && enough_messages(rule, bag);
        self.rules.iter().find(|(_, rule)| holds(rule)).map(|(position, _)| *position)
    }

    /// The rule of this atomic at a position in the file.
    pub fn rule(&self, position: usize) -> &'m Rule {
        let own = self.rules.iter().find(|(own, _)| *own == position);
        own.expect("a rule of this atomic").1
    }
}

/// The Parallel DEVS model. An elapsed time here is the one since the last event.
impl Atomic<'_> {
    /// ta: what is left of the phase's advance; none for never.
    pub fn time_advance(&self, state: AtomicState) -> Option<u64> {
        let advance = self.advance(state.phase)?;
        Some(advance.checked_sub(state.spent).expect("no stay is longer than its advance"))
    }

    /// δint: "Imminent with an empty bag: next phase."
    pub fn internal(&self, state: AtomicState) -> AtomicState {
        AtomicState::afresh(self.next_phase(state.phase))
    }

    /// δext: a rule begins a stay, be it in the same phase. Where no rule holds "the external transition
    /// keeps both phase and last moment": all the time up to now is spent on the same stay.
    pub fn external(&self, state: AtomicState, elapsed: u64, bag: &[Message]) -> Led {
        let spent = state.spent + elapsed;
        match self.deciding_rule(state.phase, spent, bag) {
            Some((rule, next)) => Led { state: AtomicState::afresh(next), rule: Some(rule) },
            None => Led { state: AtomicState { spent, ..state }, rule: None },
        }
    }

    /// δcon(s, x) = δext(δint(s), 0, x) for order 0, δint(δext(s, ta(s), x)) for order 1. Either way a stay
    /// begins, whichever part had no rule.
    pub fn confluent(&self, state: AtomicState, bag: &[Message]) -> Led {
        if self.internal_first {
            return self.external(self.internal(state), 0, bag);
        }
        let left = self.time_advance(state).expect("a never-due atomic is not imminent");
        let led = self.external(state, left, bag);
        Led { state: self.internal(led.state), ..led }
    }
}

fn enough_messages(rule: &Rule, bag: &[Message]) -> bool {
    match_count(rule, bag) >= usize::from(rule.least_count)
}

/// How many messages of a bag meet a rule: those on its port with a value in its range.
pub fn match_count(rule: &Rule, bag: &[Message]) -> usize {
    let meets = |message: &&Message| {
        message.port == rule.port && (rule.low_value..=rule.high_value).contains(&message.value)
    };
    bag.iter().filter(meets).count()
}
