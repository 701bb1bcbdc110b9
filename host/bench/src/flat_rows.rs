//! The limit: routes are compiled once in a call to flat rows, grouped by the atomic, or the root,
//! where they end, and a step walks rows. Due moments are kept, and their least is found by a plain
//! minimum. Optimised Rust, not verified.

use crate::shared::advance::{self, Accepted, Buffers, Simulator};
use crate::shared::channels;
use crate::shared::deciding::entered;
use crate::shared::feed;
use crate::shared::held::{due_after, Held, NEVER};
use crate::shared::keys::{put_given, put_sent};
use crate::shared::lights::Lights;
use crate::shared::tables::{is_output, Tables, PORTS, PORT_NODES};
use crate::shared::unchecked::{at, front, put};
use reference::limits;
use reference::{Advanced, Asked, Channels, Fed};

pub fn advance(
    model: &[u8],
    run: &mut [u8],
    t: u64,
    bag: &[u8],
    trace: &mut [u8],
    rules: &mut [u8],
) -> Advanced {
    advance::advance::<FlatRows>(model, run, t, bag, trace, rules)
}

pub fn advance_feed(model: &[u8], run: &mut [u8], end: u64, bags: &[u8], trace: &mut [u8]) -> Fed {
    feed::advance_feed::<FlatRows>(model, run, end, bags, trace)
}

pub fn advance_channels(
    model: &[u8],
    runs: &mut [u8],
    asked: &Asked,
    traces: &mut [u8],
) -> Channels {
    channels::advance_channels::<FlatRows>(model, runs, asked, traces)
}

/// A row is the node where a route begins, and above that the port where it ends.
const OWN_PORT: u32 = 10;
const NODE: usize = (1 << OWN_PORT) - 1;

struct FlatRows {
    rows: [u16; limits::ROUTES as usize],
    /// By end: where its rows begin; the root comes after the atomics.
    starts: [u16; limits::COMPONENTS + 1],
}

#[derive(Clone)]
struct State {
    held: Held,
    /// By position.
    dues: [u64; limits::COMPONENTS],
}

impl Simulator for FlatRows {
    type State = State;

    fn new(accepted: &Accepted) -> FlatRows {
        let tables = accepted.tables;
        let mut flat =
            FlatRows { rows: [0; limits::ROUTES as usize], starts: [0; limits::COMPONENTS + 1] };
        let mut routes = Routes { tables, rows: &mut flat.rows, count: 0 };
        for position in 0..tables.atomics {
            let first = usize::from(at(&tables.numbers, position)) * PORT_NODES;
            (0..PORTS).for_each(|port| routes.list_input(port, first + port));
            put(&mut flat.starts, position + 1, routes.count as u16);
        }
        (0..PORTS).for_each(|port| routes.list_output(port, PORTS + port));
        put(&mut flat.starts, tables.atomics + 1, routes.count as u16);
        flat
    }

    fn state(&self, accepted: &Accepted, held: Held) -> State {
        let mut dues = [NEVER; limits::COMPONENTS];
        for position in 0..accepted.tables.atomics {
            put(&mut dues, position, due_of(accepted, &held, position));
        }
        State { held, dues }
    }

    fn held(state: &State) -> &Held {
        &state.held
    }

    #[inline(always)]
    fn next_due(&self, accepted: &Accepted, state: &State) -> u64 {
        let dues = front(&state.dues, accepted.tables.atomics);
        dues.iter().fold(NEVER, |least, &due| least.min(due))
    }

    fn step<L: Lights>(
        &self,
        accepted: &Accepted,
        state: &mut State,
        now: u64,
        given: &[u8],
        buffers: &mut Buffers<L>,
    ) -> usize {
        let tables = accepted.tables;
        let emits = emits(tables, state, now, !given.is_empty());
        let flow = Flow { phases: accepted.model.phases, emits: &emits, given };
        let in_root_bag = flow.collect(self.rows_of(tables.atomics), buffers.root);
        for position in 0..tables.atomics {
            let length = flow.collect(self.rows_of(position), buffers.bag);
            let is_due = at(&state.dues, position) == now;
            if is_due || length > 0 {
                let bag = front(buffers.bag, length);
                let held = &mut state.held;
                let lights = &mut buffers.lights;
                let entered = entered(accepted, held, position, now, is_due, bag, lights);
                let Some(phase) = entered else { continue };
                held.change(position, phase, now);
                put(&mut state.dues, position, due_of(accepted, held, position));
            }
        }
        buffers.root[..in_root_bag].sort_unstable();
        in_root_bag
    }
}

impl FlatRows {
    #[inline(always)]
    fn rows_of(&self, end: usize) -> &[u16] {
        let (from, to) = (at(&self.starts, end), at(&self.starts, end + 1));
        &front(&self.rows, usize::from(to))[usize::from(from)..]
    }
}

#[inline(always)]
fn due_of(accepted: &Accepted, held: &Held, position: usize) -> u64 {
    let number = usize::from(at(&accepted.tables.numbers, position));
    let record = held.record(accepted.tables, position, number);
    due_after(accepted.model.phases, record, at(&held.lasts, position))
}

type ByComponent = [u16; limits::COMPONENTS];

/// By component: the phase record and 1 of an atomic that is due, read before any transition; the
/// root has 1 where a bag is given.
#[inline(always)]
fn emits(tables: &Tables, state: &State, now: u64, is_given: bool) -> ByComponent {
    let mut emits = [0; limits::COMPONENTS];
    emits[0] = u16::from(is_given);
    for position in 0..tables.atomics {
        if at(&state.dues, position) == now {
            let number = usize::from(at(&tables.numbers, position));
            put(&mut emits, number, state.held.record(tables, position, number) as u16 + 1);
        }
    }
    emits
}

/// What the bags of a step are collected from.
struct Flow<'s> {
    phases: &'s [u8],
    emits: &'s ByComponent,
    given: &'s [u8],
}

impl Flow<'_> {
    /// Puts what comes along rows, and answers its length.
    #[inline(always)]
    fn collect(&self, rows: &[u16], bag: &mut [u32]) -> usize {
        let mut length = 0;
        for &row in rows {
            let node = usize::from(row) & NODE;
            let emit = at(self.emits, node / PORT_NODES);
            if emit == 0 {
                continue;
            }
            let own = (u32::from(row) >> OWN_PORT) << 16;
            length = if node < PORT_NODES {
                put_given(self.given, node as u8, own, bag, length)
            } else {
                let port = (node % PORTS) as u32;
                put_sent(self.phases, usize::from(emit) - 1, port, own, bag, length)
            };
        }
        length
    }
}

/// Routes listed from their ends backwards. Only nodes to which a source leads are entered.
struct Routes<'c> {
    tables: &'c Tables,
    rows: &'c mut [u16; limits::ROUTES as usize],
    count: usize,
}

impl Routes<'_> {
    /// Lists what leads to an input node, for the end at port `own`.
    fn list_input(&mut self, own: usize, node: usize) {
        if node < PORT_NODES {
            return self.add(own, node);
        }
        self.list_sources(own, node);
    }

    /// Lists what leads to the output node of a component.
    fn list_output(&mut self, own: usize, node: usize) {
        if at(&self.tables.kinds, node / PORT_NODES) == 1 {
            return self.add(own, node);
        }
        self.list_sources(own, node);
    }

    fn list_sources(&mut self, own: usize, node: usize) {
        if at(&self.tables.live, node) == 0 {
            return;
        }
        let mut link = usize::from(at(&self.tables.first_links, node));
        while link != 0 {
            let source = usize::from(at(&self.tables.sources, link));
            if is_output(source) {
                self.list_output(own, source);
            } else {
                self.list_input(own, source);
            }
            link = usize::from(at(&self.tables.next_links, link));
        }
    }

    fn add(&mut self, own: usize, node: usize) {
        put(self.rows, self.count, ((own << OWN_PORT) | node) as u16);
        self.count += 1;
    }
}
