//! The tables of a call: what a step looks up, computed once from an accepted model's records.
//!
//! A port node is component x 8, 4 more for an output, and the port. Couplings are chained by the node
//! where they end: coupling i is link i + 1, and link 0 is none.

use super::model_file::ModelFile;
use super::unchecked::{at, put};
use reference::answers::TOO_MANY_ROUTES;
use reference::limits;
use reference::records::{Component, Coupling, Rule};

pub const PORTS: usize = 4;
pub const PORT_NODES: usize = 8;
const NODES: usize = limits::COMPONENTS * PORT_NODES;
const LINKS: usize = limits::COUPLINGS + 1;
/// Where the counts of ways stop growing.
const WAYS_CAP: u16 = limits::ROUTES as u16 + 1;

type ByComponent = [u16; limits::COMPONENTS];

pub struct Tables {
    pub components: usize,
    pub atomics: usize,
    pub routes: usize,
    /// By position among the atomics: the component number.
    pub numbers: ByComponent,
    /// By component: position of an atomic, kind, order, first phase record, parent.
    pub positions: ByComponent,
    pub kinds: ByComponent,
    pub orders: ByComponent,
    pub first_phases: ByComponent,
    pub parents: ByComponent,
    /// By component: the first rule that names it, and one past the last.
    pub rules_from: ByComponent,
    pub rules_to: ByComponent,
    /// By component: first child and next sibling, 0 for none.
    pub children: ByComponent,
    pub siblings: ByComponent,
    /// By node: the first link of the couplings that end there, and whether a source leads there.
    pub first_links: [u16; NODES],
    pub live: [u16; NODES],
    /// By link: the next link with the same end, and the node where the coupling begins.
    pub next_links: [u16; LINKS],
    pub sources: [u16; LINKS],
}

impl Tables {
    pub const fn empty() -> Tables {
        Tables {
            components: 0,
            atomics: 0,
            routes: 0,
            numbers: [0; limits::COMPONENTS],
            positions: [0; limits::COMPONENTS],
            kinds: [0; limits::COMPONENTS],
            orders: [0; limits::COMPONENTS],
            first_phases: [0; limits::COMPONENTS],
            parents: [0; limits::COMPONENTS],
            rules_from: [0; limits::COMPONENTS],
            rules_to: [0; limits::COMPONENTS],
            children: [0; limits::COMPONENTS],
            siblings: [0; limits::COMPONENTS],
            first_links: [0; NODES],
            live: [0; NODES],
            next_links: [0; LINKS],
            sources: [0; LINKS],
        }
    }

    /// Fills empty tables, or refuses a model that has too many routes.
    pub fn fill(&mut self, model: &ModelFile) -> Result<(), u64> {
        self.fill_components(model);
        self.fill_rules(model);
        self.fill_couplings(model);
        if self.routes > limits::ROUTES as usize {
            return Err(TOO_MANY_ROUTES);
        }
        Ok(())
    }

    fn fill_components(&mut self, model: &ModelFile) {
        self.components = model.components.len() / Component::BYTES;
        let mut first_phase = 0;
        for number in 0..self.components {
            let record = Component::BYTES * number;
            let kind = u16::from(at(model.components, record));
            put(&mut self.numbers, self.atomics, number as u16);
            put(&mut self.positions, number, self.atomics as u16);
            put(&mut self.kinds, number, kind);
            put(&mut self.orders, number, u16::from(at(model.components, record + 4)));
            put(&mut self.first_phases, number, first_phase);
            put(&mut self.parents, number, u16::from(at(model.components, record + 1)));
            self.atomics += usize::from(kind);
            first_phase += u16::from(at(&model.phase_counts, number));
        }
        for number in (1..self.components).rev() {
            let parent = usize::from(at(&self.parents, number));
            put(&mut self.siblings, number, at(&self.children, parent));
            put(&mut self.children, parent, number as u16);
        }
    }

    fn fill_rules(&mut self, model: &ModelFile) {
        for rule in 0..model.rules.len() / Rule::BYTES {
            let named = usize::from(at(model.rules, Rule::BYTES * rule));
            if at(&self.rules_to, named) == 0 {
                put(&mut self.rules_from, named, rule as u16);
            }
            put(&mut self.rules_to, named, rule as u16 + 1);
        }
    }

    /// The chains, the live nodes and the routes, in one pass from the last coupling to the first and
    /// one from the first to the last. Rows stand by source and children above their parents, so the
    /// first pass meets ways onward from inputs, and live outputs, in the order of their making; the
    /// second one ways onward from outputs, and live inputs.
    fn fill_couplings(&mut self, model: &ModelFile) {
        let count = model.couplings.len() / Coupling::BYTES;
        let mut targets = [0u16; LINKS];
        let mut ways = [0u16; NODES];
        for port in 0..PORTS {
            put(&mut ways, PORTS + port, 1);
            put(&mut self.live, port, 1);
        }
        for position in 0..self.atomics {
            let first = usize::from(at(&self.numbers, position)) * PORT_NODES;
            for port in first..first + PORTS {
                put(&mut ways, port, 1);
                put(&mut self.live, port + PORTS, 1);
            }
        }
        for link in (1..=count).rev() {
            let (source, target) = nodes(model, Coupling::BYTES * (link - 1));
            put(&mut self.sources, link, source as u16);
            put(&mut targets, link, target as u16);
            put(&mut self.next_links, link, at(&self.first_links, target));
            put(&mut self.first_links, target, link as u16);
            if is_output(source) {
                add_life(&mut self.live, source, target);
            } else {
                add_ways(&mut ways, source, target);
            }
        }
        for link in 1..=count {
            let source = usize::from(at(&self.sources, link));
            let target = usize::from(at(&targets, link));
            if is_output(source) {
                add_ways(&mut ways, source, target);
            } else {
                add_life(&mut self.live, source, target);
            }
        }
        self.routes = four_ways(&ways, 0);
        for position in 0..self.atomics {
            let first = usize::from(at(&self.numbers, position)) * PORT_NODES;
            self.routes += four_ways(&ways, first + PORTS);
        }
    }
}

#[inline(always)]
pub fn is_output(node: usize) -> bool {
    node & PORTS != 0
}

/// Where the coupling at a place begins and ends: from a parent it joins input to input, to a parent
/// output to output, and else output to input.
#[inline(always)]
fn nodes(model: &ModelFile, place: usize) -> (usize, usize) {
    let byte = |field: usize| usize::from(at(model.couplings, place + field));
    let [source, source_port, target, target_port] = [0, 1, 2, 3].map(byte);
    let from_parent = usize::from(at(&model.parents, target)) == source;
    let to_parent = usize::from(at(&model.parents, source)) == target;
    (
        source * PORT_NODES + usize::from(!from_parent) * PORTS + source_port,
        target * PORT_NODES + usize::from(to_parent) * PORTS + target_port,
    )
}

/// What leads to where a coupling begins leads to where it ends.
#[inline(always)]
fn add_life(live: &mut [u16; NODES], source: usize, target: usize) {
    let either = at(live, source) | at(live, target);
    put(live, target, either);
}

/// The ways on from where a coupling ends are ways on from where it begins.
#[inline(always)]
fn add_ways(ways: &mut [u16; NODES], source: usize, target: usize) {
    let sum = at(ways, source) + at(ways, target);
    put(ways, source, sum.min(WAYS_CAP));
}

fn four_ways(ways: &[u16; NODES], first: usize) -> usize {
    (first..first + PORTS).map(|node| usize::from(at(ways, node))).sum()
}
