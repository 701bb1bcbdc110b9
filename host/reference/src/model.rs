//! A model as its four sections of records and the reading of its ranges, the component tree, and the file
//! that holds a model.

use crate::ranges::Ranges;
use crate::records::{Component, Coupling, Phase, Rule};

#[derive(Clone, Debug, Default, PartialEq, Eq)]
pub struct Model {
    pub components: Vec<Component>,
    pub phases: Vec<Phase>,
    pub rules: Vec<Rule>,
    pub couplings: Vec<Coupling>,
    pub ranges: Ranges,
}

/// How the two ends of a coupling stand to each other.
#[derive(Clone, Copy, Debug, PartialEq, Eq)]
pub enum Relation {
    /// The source is the target's parent: input to input.
    FromParent,
    /// The two have the same parent: output to input.
    Siblings,
    /// The target is the source's parent: output to output.
    ToParent,
}

impl Model {
    /// The numbers of the atomics, in file order.
    pub fn atomics(&self) -> Vec<usize> {
        (0..self.components.len()).filter(|&number| self.components[number].is_atomic()).collect()
    }

    /// The children of a component. The root is nobody's child, though its parent byte is 0.
    pub fn children(&self, parent: usize) -> Vec<usize> {
        (1..self.components.len()).filter(|&number| self.parent(number) == Some(parent)).collect()
    }

    /// The parent of a component; the root has none.
    pub fn parent(&self, number: usize) -> Option<usize> {
        parent_of(&self.components, number)
    }

    /// The phase records of a component: they stand atomic by atomic in file order.
    pub fn phases_of(&self, number: usize) -> &[Phase] {
        let count = |component: &Component| usize::from(component.phase_count);
        let first: usize = self.components[..number].iter().map(count).sum();
        &self.phases[first..first + count(&self.components[number])]
    }

    /// How the ends of a coupling stand to each other; none for two components that may not be coupled.
    pub fn relation(&self, source: usize, target: usize) -> Option<Relation> {
        relation_of(&self.components, source, target)
    }

    /// The bytes of the model's file.
    pub fn encode(&self) -> Vec<u8> {
        let mut file = Vec::new();
        put_count(&mut file, self.components.len());
        self.components.iter().for_each(|component| component.write(&mut file));
        put_count(&mut file, self.phases.len());
        self.phases.iter().for_each(|phase| phase.write(&mut file));
        put_count(&mut file, self.rules.len());
        self.rules.iter().for_each(|rule| rule.write(&mut file));
        put_count(&mut file, self.couplings.len());
        self.couplings.iter().for_each(|coupling| coupling.write(&mut file));
        self.ranges.write(&mut file);
        file
    }
}

fn put_count(file: &mut Vec<u8>, count: usize) {
    let count = u16::try_from(count).expect("a section's count has two bytes");
    file.extend(count.to_le_bytes());
}

/// The parent of a component; the root has none.
pub fn parent_of(components: &[Component], number: usize) -> Option<usize> {
    (number != 0).then(|| usize::from(components[number].parent))
}

/// "Source is the target's parent, its sibling, or its child; never the same component."
pub fn relation_of(components: &[Component], source: usize, target: usize) -> Option<Relation> {
    let parent = |number| parent_of(components, number);
    if source == target {
        None
    } else if parent(target) == Some(source) {
        Some(Relation::FromParent)
    } else if parent(source) == Some(target) {
        Some(Relation::ToParent)
    } else if parent(source).is_some() && parent(source) == parent(target) {
        Some(Relation::Siblings)
    } else {
        None
    }
}
