//! Putting a model together record by record, for tests and generators. Nothing is checked here:
//! whether the outcome is legal is for `decode` to say.

use crate::limits::UNBOUNDED;
use crate::model::Model;
use crate::ranges::Ranges;
use crate::records::{Component, Coupling, Message, Phase, Rule};

pub const NEVER: u32 = UNBOUNDED;

#[derive(Clone, Debug)]
pub struct Builder {
    model: Model,
}

impl Default for Builder {
    fn default() -> Builder {
        Builder::new()
    }
}

impl Builder {
    /// A model that is a root without children.
    pub fn new() -> Builder {
        let model = Model { components: vec![Component::default()], ..Model::default() };
        Builder { model }
    }

    pub fn coupled(&mut self, parent: usize) -> usize {
        self.component(Component { parent: byte(parent), ..Component::default() })
    }

    /// A chain of coupled components, each the child of the one before. Answers the last.
    pub fn coupled_chain(&mut self, parent: usize, length: usize) -> usize {
        (0..length).fold(parent, |parent, _| self.coupled(parent))
    }

    /// An atomic that starts in phase 0, internal transition first.
    pub fn atomic(&mut self, parent: usize, phases: &[Phase]) -> usize {
        self.atomic_from(parent, 0, 0, phases)
    }

    pub fn atomic_from(
        &mut self,
        parent: usize,
        initial: u8,
        order: u8,
        phases: &[Phase],
    ) -> usize {
        self.model.phases.extend(phases);
        self.component(Component {
            kind: Component::ATOMIC,
            parent: byte(parent),
            phase_count: byte(phases.len()),
            initial_phase: initial,
            order,
        })
    }

    fn component(&mut self, component: Component) -> usize {
        self.model.components.push(component);
        self.model.components.len() - 1
    }

    pub fn rule(&mut self, rule: Rule) {
        self.model.rules.push(rule);
    }

    pub fn couple(&mut self, source: usize, source_port: u8, target: usize, target_port: u8) {
        self.couple_times(1, source, source_port, target, target_port);
    }

    pub fn couple_times(
        &mut self,
        times: usize,
        source: usize,
        source_port: u8,
        target: usize,
        target_port: u8,
    ) {
        let row = Coupling { source: byte(source), source_port, target: byte(target), target_port };
        self.model.couplings.extend(std::iter::repeat_n(row, times));
    }

    /// The same with elapsed ranges that are read so.
    pub fn read_as(mut self, ranges: Ranges) -> Builder {
        self.model.ranges = ranges;
        self
    }

    /// The model, its couplings in order.
    pub fn model(&self) -> Model {
        let mut model = self.model.clone();
        model.couplings.sort();
        model
    }

    /// The bytes of the model's file.
    pub fn file(&self) -> Vec<u8> {
        self.model().encode()
    }
}

fn byte(number: usize) -> u8 {
    u8::try_from(number).expect("a component or phase number has one byte")
}

/// A phase with its outputs as pairs of port and value.
pub fn phase(advance: u32, next_phase: u8, outputs: &[(u8, u16)]) -> Phase {
    let mut slots = [Message::default(); 4];
    for (slot, &(port, value)) in slots.iter_mut().zip(outputs) {
        *slot = Message { port, value };
    }
    Phase { advance, next_phase, output_count: byte(outputs.len()), slots }
}

/// A rule that one message with the value on port 0 satisfies, whatever the elapsed time.
pub fn rule(component: usize, phase: u8, value: u16, next_phase: u8) -> Rule {
    Rule {
        component: byte(component),
        phase,
        next_phase,
        port: 0,
        low_value: value,
        high_value: value,
        least_count: 1,
        low_elapsed: 0,
        high_elapsed: UNBOUNDED,
    }
}

/// The rows of a given bag, from pairs of port and value.
pub fn bag(messages: &[(u8, u16)]) -> Vec<u8> {
    let mut bytes = Vec::new();
    for &(port, value) in messages {
        Message { port, value }.write(&mut bytes);
    }
    bytes
}
