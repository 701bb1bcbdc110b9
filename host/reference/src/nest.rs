//! The nest of a model: its tree of components, built from the records, and the way between a
//! saved run's last moments and the elapsed times that the resultants keep.

use crate::atomic::{Atomic, AtomicState};
use crate::model::Model;
use crate::resultant::{Devs, Resultant, State, TotalState};
use crate::routes::{self, Port, PortTable, Side};
use crate::saved_run::AtomicRun;

/// What becomes of a message that can reach no end of a route.
#[derive(Clone, Copy, Debug, PartialEq, Eq)]
pub enum DeadWays {
    /// It goes as far as its couplings lead, as 001 has it. Only for models with few ways.
    Kept,
    /// It is dropped where it leaves the last port from which something could be reached: a model
    /// may have 10^15 ways that end nowhere, and "a message that reaches no such end .. counts nowhere".
    Dropped,
}

/// The resultant of the root.
pub fn root<'m>(model: &'m Model, dead_ways: DeadWays) -> Devs<'m> {
    let mut onward = routes::onward(model);
    if dead_ways == DeadWays::Dropped {
        drop_dead_ways(model, &mut onward);
    }
    component(model, &onward, 0, 0)
}

fn drop_dead_ways(model: &Model, onward: &mut PortTable<Vec<Port>>) {
    let ways = routes::ways_to_an_end(model);
    for component in 0..model.components.len() {
        for (side, number) in sides_and_numbers() {
            let from = Port { component, side, number };
            onward.at_mut(from).retain(|to| *ways.at(*to) > 0);
        }
    }
}

fn sides_and_numbers() -> impl Iterator<Item = (Side, u8)> {
    [Side::Input, Side::Output]
        .into_iter()
        .flat_map(|side| (0..4).map(move |number| (side, number)))
}

fn component<'m>(
    model: &'m Model,
    onward: &PortTable<Vec<Port>>,
    number: usize,
    ancestors: usize,
) -> Devs<'m> {
    if model.components[number].is_atomic() {
        let rank = model.components[..number].iter().filter(|earlier| earlier.is_atomic()).count();
        return Devs::Atomic { atomic: Atomic::new(model, number), rank, ancestors };
    }
    let children = model.children(number);
    let place = |child: usize| children.iter().position(|&c| c == child).expect("a child");
    let onward_from = |component: usize, side: Side, number: usize| {
        onward.at(Port { component, side, number: number as u8 }).iter()
    };
    let to_children = |component: usize, side: Side| -> [Vec<(usize, u8)>; 4] {
        std::array::from_fn(|port| {
            let inputs = onward_from(component, side, port).filter(|to| to.side == Side::Input);
            inputs.map(|to| (place(to.component), to.number)).collect()
        })
    };
    let to_own_output = |child: usize| -> [Vec<u8>; 4] {
        std::array::from_fn(|port| {
            let outputs =
                onward_from(child, Side::Output, port).filter(|to| to.side == Side::Output);
            outputs.map(|to| to.number).collect()
        })
    };
    Devs::Coupled(Resultant {
        from_input: to_children(number, Side::Input),
        to_siblings: children.iter().map(|&child| to_children(child, Side::Output)).collect(),
        to_output: children.iter().map(|&child| to_own_output(child)).collect(),
        children: children
            .iter()
            .map(|&child| component(model, onward, child, ancestors + 1))
            .collect(),
    })
}

/// A component's state from where its atomics stand, and the component's own last moment. That of a
/// coupled component is the greatest of its children's, and 0 without children; a child's elapsed
/// time is its parent's last moment less its own. An atomic's last moment counts as its last event:
/// how much of a stay had gone by at a stray cue, and how much since, is the same to everything.
pub fn load(devs: &Devs, atomics: &[AtomicRun]) -> (State, u64) {
    match devs {
        Devs::Atomic { rank, .. } => {
            let AtomicRun { phase, last } = atomics[*rank];
            (State::Atomic(AtomicState::afresh(phase)), last)
        }
        Devs::Coupled(resultant) => {
            let loaded: Vec<(State, u64)> =
                resultant.children.iter().map(|child| load(child, atomics)).collect();
            let last = loaded.iter().map(|(_, last)| *last).max().unwrap_or(0);
            let total = |(state, own): (State, u64)| TotalState { state, elapsed: last - own };
            (State::Children(loaded.into_iter().map(total).collect()), last)
        }
    }
}

/// Notes where the atomics stand below a component whose last event was at `last`: an atomic's
/// elapsed time is the sum of the elapsed times on the way down to it, and its stay began earlier by
/// the time that it had spent by then.
pub fn save(devs: &Devs, state: &State, last: u64, atomics: &mut [AtomicRun]) {
    match (devs, state) {
        (Devs::Atomic { rank, .. }, State::Atomic(AtomicState { phase, spent })) => {
            atomics[*rank] = AtomicRun { phase: *phase, last: last - spent };
        }
        (Devs::Coupled(resultant), State::Children(children)) => {
            for (devs, child) in resultant.children.iter().zip(children) {
                save(devs, &child.state, last - child.elapsed, atomics);
            }
        }
        _ => unreachable!("the state of another component"),
    }
}
