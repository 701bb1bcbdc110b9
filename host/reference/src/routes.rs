//! Ways along couplings: how many lead on from each port to an end, and the routes of a model.
//!
//! An accepted model may have 10^15 ways that end nowhere, so nothing here walks along ways before
//! it is known that they reach an end: the counts are made port by port and stop growing at a cap.

use crate::model::{Model, Relation};
use crate::records::Coupling;

#[derive(Clone, Copy, Debug, PartialEq, Eq)]
pub enum Side {
    Input,
    Output,
}

/// One port of one component.
#[derive(Clone, Copy, Debug, PartialEq, Eq)]
pub struct Port {
    pub component: usize,
    pub side: Side,
    pub number: u8,
}

/// A coupling as a way from a port to a port.
#[derive(Clone, Copy, Debug)]
pub struct Link {
    pub from: Port,
    pub to: Port,
}

/// Each coupling between the very ports that it joins.
pub fn links(model: &Model) -> Vec<Link> {
    model.couplings.iter().map(|coupling| link(model, coupling)).collect()
}

fn link(model: &Model, coupling: &Coupling) -> Link {
    let (source, target) = (usize::from(coupling.source), usize::from(coupling.target));
    let relation = model.relation(source, target).expect("a legal coupling");
    let (from_side, to_side) = match relation {
        Relation::FromParent => (Side::Input, Side::Input),
        Relation::Siblings => (Side::Output, Side::Input),
        Relation::ToParent => (Side::Output, Side::Output),
    };
    Link {
        from: Port { component: source, side: from_side, number: coupling.source_port },
        to: Port { component: target, side: to_side, number: coupling.target_port },
    }
}

/// Something for each port of each component.
pub struct PortTable<T> {
    entries: Vec<T>,
}

impl<T: Clone> PortTable<T> {
    pub fn new(components: usize, entry: T) -> PortTable<T> {
        PortTable { entries: vec![entry; components * 8] }
    }

    fn index(port: Port) -> usize {
        let side = if port.side == Side::Output { 4 } else { 0 };
        port.component * 8 + side + usize::from(port.number)
    }

    pub fn at(&self, port: Port) -> &T {
        &self.entries[Self::index(port)]
    }

    pub fn at_mut(&mut self, port: Port) -> &mut T {
        &mut self.entries[Self::index(port)]
    }
}

/// For each port the ports that its couplings lead to, in file order, repeats kept.
pub fn onward(model: &Model) -> PortTable<Vec<Port>> {
    let mut table = PortTable::new(model.components.len(), Vec::new());
    for link in links(model) {
        table.at_mut(link.from).push(link.to);
    }
    table
}

/// An end of a route: an atomic's input port or a root output port.
fn is_end(model: &Model, port: Port) -> bool {
    match port.side {
        Side::Input => model.components[port.component].is_atomic(),
        Side::Output => port.component == 0,
    }
}

/// The start of a route: an atomic's output port or a root input port.
fn sources(model: &Model) -> Vec<Port> {
    let mut sources = Vec::new();
    for component in 0..model.components.len() {
        let side = match (component, model.components[component].is_atomic()) {
            (0, _) => Side::Input,
            (_, true) => Side::Output,
            (_, false) => continue,
        };
        sources.extend((0..4).map(|number| Port { component, side, number }));
    }
    sources
}

/// Fills a table from the ends backwards: `own` is what a port counts itself, and each coupling
/// adds what the port it reaches counts. Sums stop at the cap.
fn fill(model: &Model, cap: u64, own: impl Fn(Port) -> u64) -> PortTable<u64> {
    let onward = onward(model);
    let components = model.components.len();
    let mut table = PortTable::new(components, 0);
    let mut fill_port = |port: Port| {
        let add = |sum: u64, next: &Port| sum.saturating_add(*table.at(*next)).min(cap);
        *table.at_mut(port) = onward.at(port).iter().fold(own(port), add);
    };
    // From an input a way leads down to children, which have higher numbers.
    for component in (0..components).rev() {
        (0..4).for_each(|number| fill_port(Port { component, side: Side::Input, number }));
    }
    // From an output it leads to inputs, done above, or up to the parent, which has a lower number.
    for component in 0..components {
        (0..4).for_each(|number| fill_port(Port { component, side: Side::Output, number }));
    }
    table
}

/// For each port the number of ways from there to an end, none counted above one over the limit.
pub fn ways_to_an_end(model: &Model) -> PortTable<u64> {
    fill(model, crate::limits::ROUTES + 1, |port| u64::from(is_end(model, port)))
}

/// The number of routes: exact up to the limit, and above it wherever there are more.
pub fn count(model: &Model) -> u64 {
    let ways = ways_to_an_end(model);
    sources(model).into_iter().map(|port| *ways.at(port)).sum()
}

/// How many ports are passed, ways that end nowhere included, when a message leaves each source.
pub fn ports_passed(model: &Model) -> u64 {
    let ways = fill(model, u64::MAX, |_| 1);
    sources(model).into_iter().fold(0, |sum, port| sum.saturating_add(*ways.at(port)))
}

/// Every route of an accepted model by its first and last port, repeats kept.
pub fn list(model: &Model) -> Vec<Link> {
    let onward = onward(model);
    let ways = ways_to_an_end(model);
    let mut routes = Vec::new();
    for from in sources(model) {
        let mut open = vec![from];
        while let Some(port) = open.pop() {
            if is_end(model, port) {
                routes.push(Link { from, to: port });
            }
            open.extend(onward.at(port).iter().filter(|next| *ways.at(**next) > 0));
        }
    }
    routes
}
