//! One step's bags, pulled. Output collection alternates between a function for a coupled component
//! and one for a child; input collection goes up, port by port. Only open nodes are entered: those
//! that a source leads to at all, and that something may reach in this step.

use super::ByComponent;
use crate::shared::keys::{put_given, put_sent};
use crate::shared::tables::{is_output, Tables, PORTS, PORT_NODES};
use crate::shared::unchecked::at;

/// What a step's bags are pulled from.
pub struct Flow<'s> {
    pub tables: &'s Tables,
    pub phases: &'s [u8],
    pub marks: &'s ByComponent,
    pub reached: &'s ByComponent,
    pub given: &'s [u8],
}

impl Flow<'_> {
    /// Puts what the coupled component of an output node puts out there; `own` is the key of the
    /// port where it arrives.
    pub fn collect_coupled(
        &self,
        own: u32,
        node: usize,
        bag: &mut [u32],
        mut length: usize,
    ) -> usize {
        if at(&self.tables.live, node) == 0 || at(self.marks, node / PORT_NODES) == 0 {
            return length;
        }
        let mut link = usize::from(at(&self.tables.first_links, node));
        while link != 0 {
            let source = usize::from(at(&self.tables.sources, link));
            length = self.collect_child(own, source, bag, length);
            link = usize::from(at(&self.tables.next_links, link));
        }
        length
    }

    /// Puts what the child of an output node puts out there.
    #[inline(always)]
    fn collect_child(&self, own: u32, node: usize, bag: &mut [u32], length: usize) -> usize {
        let child = node / PORT_NODES;
        if at(&self.tables.kinds, child) == 0 {
            return self.collect_coupled(own, node, bag, length);
        }
        match at(self.marks, child) {
            0 => length,
            mark => {
                let port = (node % PORTS) as u32;
                put_sent(self.phases, usize::from(mark) - 1, port, own, bag, length)
            }
        }
    }

    /// Puts what arrives at an input node.
    pub fn collect_input(
        &self,
        own: u32,
        node: usize,
        bag: &mut [u32],
        mut length: usize,
    ) -> usize {
        if node < PORT_NODES {
            return put_given(self.given, node as u8, own, bag, length);
        }
        if at(&self.tables.live, node) == 0 || at(self.reached, node / PORT_NODES) == 0 {
            return length;
        }
        let mut link = usize::from(at(&self.tables.first_links, node));
        while link != 0 {
            let source = usize::from(at(&self.tables.sources, link));
            length = self.collect_source(own, source, bag, length);
            link = usize::from(at(&self.tables.next_links, link));
        }
        length
    }

    /// Puts what comes from a node that leads to an input: a sibling's output, or the parent's input.
    #[inline(always)]
    fn collect_source(&self, own: u32, node: usize, bag: &mut [u32], length: usize) -> usize {
        if is_output(node) {
            self.collect_child(own, node, bag, length)
        } else {
            self.collect_input(own, node, bag, length)
        }
    }
}
