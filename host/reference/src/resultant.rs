//! A coupled component as the resultant of its children, as source document 001 defines it:
//! its state is the total state (s_d, e_d) of every child, and it is a Parallel DEVS model itself.

use crate::atomic::{Atomic, AtomicState};
use crate::lit_rules::{Told, Transition};
use crate::observed::Observed;
use crate::range_ends::{Search, Searching};
use crate::records::Message;

pub type Bag = Vec<Message>;

/// A component: an atomic, or the resultant of a coupled one.
pub enum Devs<'m> {
    /// `rank` is its place among the atomics in file order.
    Atomic {
        atomic: Atomic<'m>,
        rank: usize,
        ancestors: usize,
    },
    Coupled(Resultant<'m>),
}

#[derive(Clone, Debug, PartialEq, Eq)]
pub enum State {
    Atomic(AtomicState),
    Children(Vec<TotalState>),
}

/// A state and the time elapsed since the component's last event.
#[derive(Clone, Debug, PartialEq, Eq)]
pub struct TotalState {
    pub state: State,
    pub elapsed: u64,
}

/// Where a transition led, and what the transitions of the atomics in it tell.
pub struct Changed {
    pub state: State,
    pub told: Vec<Told>,
}

pub struct Resultant<'m> {
    pub children: Vec<Devs<'m>>,
    /// For each input port: the children, by place among the children, and their input ports.
    pub from_input: [Vec<(usize, u8)>; 4],
    /// For each child and each of its output ports: the siblings and their input ports.
    pub to_siblings: Vec<[Vec<(usize, u8)>; 4]>,
    /// For each child and each of its output ports: the output ports of the component itself.
    pub to_output: Vec<[Vec<u8>; 4]>,
}

impl Devs<'_> {
    /// ta: none where nothing is ever due.
    pub fn time_advance(&self, state: &State) -> Option<u64> {
        match (self, state) {
            (Devs::Atomic { atomic, .. }, State::Atomic(state)) => atomic.time_advance(*state),
            (Devs::Coupled(resultant), State::Children(children)) => {
                resultant.time_advance(children)
            }
            _ => unreachable!("the state of another component"),
        }
    }

    /// λ
    pub fn output(&self, state: &State) -> Bag {
        match (self, state) {
            (Devs::Atomic { atomic, .. }, State::Atomic(state)) => {
                atomic.outputs(state.phase).to_vec()
            }
            (Devs::Coupled(resultant), State::Children(children)) => resultant.output(children),
            _ => unreachable!("the state of another component"),
        }
    }

    /// δint
    pub fn internal(&self, state: &State, observed: &mut Observed) -> Changed {
        match (self, state) {
            (Devs::Atomic { atomic, ancestors, .. }, State::Atomic(state)) => {
                observed.internal(*ancestors, *state);
                self.changed(atomic.internal(*state), Transition::Internal)
            }
            (Devs::Coupled(resultant), State::Children(children)) => {
                // δint is δcon with no input: INF' is then INF, and so are the other sets.
                resultant.confluent(children, &[], observed)
            }
            _ => unreachable!("the state of another component"),
        }
    }

    /// δext
    pub fn external(
        &self,
        state: &State,
        elapsed: u64,
        bag: &[Message],
        observed: &mut Observed,
    ) -> Changed {
        match (self, state) {
            (Devs::Atomic { atomic, ancestors, .. }, State::Atomic(state)) => {
                let led = atomic.external(*state, elapsed, bag);
                observed.external(*ancestors, *state, elapsed, &led);
                let (phase, elapsed, decided) = (state.phase, state.spent + elapsed, led.rule);
                observed.external_part(elapsed, bag.len(), decided.is_some());
                let by = Searching::External;
                observed.range_ends.add(&Search { by, atomic, phase, elapsed, bag, decided });
                self.changed(led.state, Transition::External { rule: decided })
            }
            (Devs::Coupled(resultant), State::Children(children)) => {
                resultant.external(children, elapsed, bag, observed)
            }
            _ => unreachable!("the state of another component"),
        }
    }

    /// δcon
    pub fn confluent(&self, state: &State, bag: &[Message], observed: &mut Observed) -> Changed {
        match (self, state) {
            (Devs::Atomic { atomic, ancestors, .. }, State::Atomic(state)) => {
                let led = atomic.confluent(*state, bag);
                observed.confluent(*ancestors, atomic, *state, &led);
                let (internal_first, decided) = (atomic.internal_first(), led.rule);
                observed.external_part(0, bag.len(), decided.is_some());
                let (by, phase, elapsed) = confluent_search(atomic, state.phase);
                observed.range_ends.add(&Search { by, atomic, phase, elapsed, bag, decided });
                self.changed(led.state, Transition::Confluent { internal_first, rule: decided })
            }
            (Devs::Coupled(resultant), State::Children(children)) => {
                resultant.confluent(children, bag, observed)
            }
            _ => unreachable!("the state of another component"),
        }
    }

    /// What an atomic's own transition answers.
    fn changed(&self, state: AtomicState, transition: Transition) -> Changed {
        let Devs::Atomic { rank, ancestors, .. } = *self else {
            unreachable!("the transition of another component");
        };
        Changed { state: State::Atomic(state), told: vec![Told { rank, ancestors, transition }] }
    }
}

/// Where and when a confluent transition searches, for what is observed of it.
fn confluent_search(atomic: &Atomic, phase: u8) -> (Searching, u8, u64) {
    if atomic.internal_first() {
        return (Searching::ConfluentInternalFirst, atomic.next_phase(phase), 0);
    }
    let advance = atomic.advance(phase).expect("a never-due atomic is not imminent");
    (Searching::ConfluentExternalFirst, phase, advance)
}

impl Resultant<'_> {
    /// ta(s) = minimum { σ_d | d ∈ D }, and never without children.
    fn time_advance(&self, children: &[TotalState]) -> Option<u64> {
        self.remaining(children).into_iter().flatten().min()
    }

    /// σ_d = ta(s_d) − e_d, none for a child that is never due.
    fn remaining(&self, children: &[TotalState]) -> Vec<Option<u64>> {
        let remaining = |(devs, child): (&Devs, &TotalState)| {
            let advance = devs.time_advance(&child.state)?;
            Some(advance.checked_sub(child.elapsed).expect("no child is overdue: e ≤ ta(s)"))
        };
        self.children.iter().zip(children).map(remaining).collect()
    }

    /// IMM(s) = { d | σ_d = ta(s) }; "a never-due child is not imminent".
    fn imminent(&self, children: &[TotalState]) -> Vec<bool> {
        let remaining = self.remaining(children);
        let least = remaining.iter().flatten().min().copied();
        remaining.into_iter().map(|child| child.is_some() && child == least).collect()
    }

    /// λ_d(s_d) of each imminent child, and an empty bag of each other.
    fn outputs_of_imminent(&self, children: &[TotalState]) -> Vec<Bag> {
        let imminent = self.imminent(children);
        let output = |place: usize| match imminent[place] {
            true => self.children[place].output(&children[place].state),
            false => Bag::new(),
        };
        (0..children.len()).map(output).collect()
    }

    /// λ(s) = { Z_d,N(λ_d(s_d)) | d ∈ IMM(s) ∧ d ∈ I_N }
    fn output(&self, children: &[TotalState]) -> Bag {
        let mut bag = Bag::new();
        for (place, output) in self.outputs_of_imminent(children).into_iter().enumerate() {
            for Message { port, value } in output {
                let ports = &self.to_output[place][usize::from(port)];
                bag.extend(ports.iter().map(|&port| Message { port, value }));
            }
        }
        bag
    }

    /// Z_N,d(x) for each child d.
    fn input_bags(&self, given: &[Message]) -> Vec<Bag> {
        let mut bags = vec![Bag::new(); self.children.len()];
        for message in given {
            for &(target, port) in &self.from_input[usize::from(message.port)] {
                bags[target].push(Message { port, value: message.value });
            }
        }
        bags
    }

    /// The case of a component that is not imminent: e is the time since its last event.
    fn external(
        &self,
        children: &[TotalState],
        e: u64,
        given: &[Message],
        observed: &mut Observed,
    ) -> Changed {
        let bags = self.input_bags(given);
        let mut next = Vec::with_capacity(children.len());
        let mut told = Vec::new();
        for (place, child) in children.iter().enumerate() {
            let elapsed = child.elapsed + e;
            next.push(if bags[place].is_empty() {
                observed.unchanged += self.atomics_at(place);
                TotalState { state: child.state.clone(), elapsed }
            } else {
                let changed =
                    self.external_of(place, &child.state, elapsed, &bags[place], observed);
                told.extend(changed.told);
                TotalState { state: changed.state, elapsed: 0 }
            });
        }
        Changed { state: State::Children(next), told }
    }

    /// The case of an imminent component. Every output is read before any child changes.
    fn confluent(
        &self,
        children: &[TotalState],
        given: &[Message],
        observed: &mut Observed,
    ) -> Changed {
        let advance = self.time_advance(children).expect("an imminent component is due");
        let imminent = self.imminent(children);
        let mut bags = self.input_bags(given);
        for (place, output) in self.outputs_of_imminent(children).into_iter().enumerate() {
            for Message { port, value } in output {
                for &(target, port) in &self.to_siblings[place][usize::from(port)] {
                    bags[target].push(Message { port, value });
                }
            }
        }
        let mut next = Vec::with_capacity(children.len());
        let mut told = Vec::new();
        for (place, TotalState { state, elapsed }) in children.iter().enumerate() {
            let (devs, bag) = (&self.children[place], &bags[place]);
            let changed = match (imminent[place], bag.is_empty()) {
                (true, true) => devs.internal(state, observed),
                (false, false) => self.external_of(place, state, elapsed + advance, bag, observed),
                (true, false) => devs.confluent(state, bag, observed),
                (false, true) => {
                    observed.unchanged += self.atomics_at(place);
                    next.push(TotalState { state: state.clone(), elapsed: elapsed + advance });
                    continue;
                }
            };
            told.extend(changed.told);
            next.push(TotalState { state: changed.state, elapsed: 0 });
        }
        Changed { state: State::Children(next), told }
    }

    /// δext,d of the child at a place.
    fn external_of(
        &self,
        place: usize,
        state: &State,
        elapsed: u64,
        bag: &[Message],
        observed: &mut Observed,
    ) -> Changed {
        let before = observed.transitions();
        let next = self.children[place].external(state, elapsed, bag, observed);
        observed.bags_lost_inside += u64::from(observed.transitions() == before);
        next
    }

    fn atomics_at(&self, place: usize) -> u64 {
        u64::from(matches!(self.children[place], Devs::Atomic { .. }))
    }
}
