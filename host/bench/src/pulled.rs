//! The yardstick with the algorithm of the proved engine: what is due is marked, each atomic's bag is
//! pulled through the couplings that end at it, and each atomic changes in place. Optimised Rust, not
//! verified.

mod collect;
mod sort;

use crate::shared::advance::{self, Accepted, Buffers, Simulator};
use crate::shared::channels;
use crate::shared::deciding::entered;
use crate::shared::feed;
use crate::shared::held::{due_after, Held, NEVER};
use crate::shared::lights::Lights;
use crate::shared::tables::{is_output, PORTS, PORT_NODES};
use crate::shared::unchecked::{at, front, put};
use collect::Flow;
use reference::limits;
use reference::{Advanced, Asked, Channels, Fed};

pub fn advance(
    model: &[u8],
    run: &mut [u8],
    t: u64,
    bag: &[u8],
    trace: &mut [u8],
    rules: &mut [u8],
) -> Advanced {
    advance::advance::<Pulled>(model, run, t, bag, trace, rules)
}

pub fn advance_feed(model: &[u8], run: &mut [u8], end: u64, bags: &[u8], trace: &mut [u8]) -> Fed {
    feed::advance_feed::<Pulled>(model, run, end, bags, trace)
}

pub fn advance_channels(
    model: &[u8],
    runs: &mut [u8],
    asked: &Asked,
    traces: &mut [u8],
) -> Channels {
    channels::advance_channels::<Pulled>(model, runs, asked, traces)
}

/// It computes nothing in a call beyond the tables.
struct Pulled;

impl Simulator for Pulled {
    type State = Held;

    fn new(_: &Accepted) -> Pulled {
        Pulled
    }

    fn state(&self, _: &Accepted, held: Held) -> Held {
        held
    }

    fn held(state: &Held) -> &Held {
        state
    }

    fn next_due(&self, accepted: &Accepted, held: &Held) -> u64 {
        due_of_coupled(accepted, held, 0)
    }

    fn step<L: Lights>(
        &self,
        accepted: &Accepted,
        held: &mut Held,
        now: u64,
        given: &[u8],
        buffers: &mut Buffers<L>,
    ) -> usize {
        let tables = accepted.tables;
        let marks = marks(accepted, held, now);
        let reached = reached(accepted, &marks, !given.is_empty());
        let flow =
            Flow { tables, phases: accepted.model.phases, marks: &marks, reached: &reached, given };
        let mut in_root_bag = 0;
        for port in 0..PORTS {
            let own = (port as u32) << 16;
            in_root_bag = flow.collect_coupled(own, PORTS + port, buffers.root, in_root_bag);
        }
        for position in 0..tables.atomics {
            let number = usize::from(at(&tables.numbers, position));
            let is_due = at(&marks, number) != 0;
            let mut length = 0;
            if at(&reached, number) != 0 {
                for port in 0..PORTS {
                    let own = (port as u32) << 16;
                    let node = number * PORT_NODES + port;
                    length = flow.collect_input(own, node, buffers.bag, length);
                }
            }
            if is_due || length > 0 {
                let bag = front(buffers.bag, length);
                let lights = &mut buffers.lights;
                let phase = entered(accepted, held, position, now, is_due, bag, lights);
                if let Some(phase) = phase {
                    held.change(position, phase, now);
                }
            }
        }
        // The last bag is done with, and has room for more messages than the root's.
        sort::sort(&mut buffers.root[..in_root_bag], buffers.bag);
        in_root_bag
    }
}

/// "A coupled component's earliest due moment is the least among its children."
fn due_of_coupled(accepted: &Accepted, held: &Held, component: usize) -> u64 {
    let tables = accepted.tables;
    let mut least = NEVER;
    let mut child = usize::from(at(&tables.children, component));
    while child != 0 {
        least = least.min(due_of_child(accepted, held, child));
        child = usize::from(at(&tables.siblings, child));
    }
    least
}

#[inline(always)]
fn due_of_child(accepted: &Accepted, held: &Held, child: usize) -> u64 {
    let tables = accepted.tables;
    if at(&tables.kinds, child) == 0 {
        return due_of_coupled(accepted, held, child);
    }
    due_of(accepted, held, usize::from(at(&tables.positions, child)), child)
}

#[inline(always)]
fn due_of(accepted: &Accepted, held: &Held, position: usize, number: usize) -> u64 {
    let record = held.record(accepted.tables, position, number);
    due_after(accepted.model.phases, record, at(&held.lasts, position))
}

type ByComponent = [u16; limits::COMPONENTS];

/// By component: an atomic that is due has its phase record and 1, and a coupled component is marked
/// where a child is. With it every output is read before any transition.
#[inline(always)]
fn marks(accepted: &Accepted, held: &Held, now: u64) -> ByComponent {
    let tables = accepted.tables;
    let mut marks = [0; limits::COMPONENTS];
    for position in 0..tables.atomics {
        let number = usize::from(at(&tables.numbers, position));
        if due_of(accepted, held, position, number) == now {
            put(&mut marks, number, held.record(tables, position, number) as u16 + 1);
        }
    }
    for component in (1..tables.components).rev() {
        if at(&marks, component) != 0 {
            put(&mut marks, usize::from(at(&tables.parents, component)), 1);
        }
    }
    marks
}

/// By component: something may reach its inputs.
#[inline(always)]
fn reached(accepted: &Accepted, marks: &ByComponent, is_given: bool) -> ByComponent {
    let tables = accepted.tables;
    let mut reached = [0; limits::COMPONENTS];
    reached[0] = u16::from(is_given);
    for component in 1..tables.components {
        let first = component * PORT_NODES;
        let links = [0, 1, 2, 3].map(|port| at(&tables.first_links, first + port));
        if links == [0; PORTS] {
            continue;
        }
        let may_come = |&first_link: &u16| {
            let mut link = usize::from(first_link);
            while link != 0 {
                let source = usize::from(at(&tables.sources, link));
                let flags = if is_output(source) { marks } else { &reached };
                if at(flags, source / PORT_NODES) != 0 {
                    return true;
                }
                link = usize::from(at(&tables.next_links, link));
            }
            false
        };
        let flag = links.iter().any(may_come);
        put(&mut reached, component, u16::from(flag));
    }
    reached
}
