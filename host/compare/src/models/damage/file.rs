//! Damage to counts, to the length of the four sections and to the number of routes: 1, 3, 5 and 9.

use super::{sections, spoilt_from, Damage};
use crate::random::Random;
use reference::builder::NEVER;
use reference::limits::{COMPONENTS, COUPLINGS, PHASES};
use reference::model::Model;
use reference::records::{Component, Coupling, Phase};

macro_rules! cut_count {
    ($name:literal, $section:literal) => {
        Damage { name: $name, number: 1, apply: |random, model| count_cut(random, model, $section) }
    };
}

macro_rules! cut_records {
    ($name:literal, $section:literal) => {
        Damage {
            name: $name,
            number: 1,
            apply: |random, model| records_cut(random, model, $section),
        }
    };
}

macro_rules! count_over {
    ($name:literal, $section:literal, $counts:expr) => {
        Damage {
            name: $name,
            number: 3,
            apply: |random, model| {
                let count = random.pick(&$counts);
                Some(with_count(random, model, $section, count))
            },
        }
    };
}

pub const DAMAGES: [Damage; 17] = [
    cut_count!("component count cut off", 0),
    cut_count!("phase count cut off", 1),
    cut_count!("rule count cut off", 2),
    cut_count!("coupling count cut off", 3),
    cut_records!("components cut off", 0),
    cut_records!("phases cut off", 1),
    cut_records!("rules cut off", 2),
    cut_records!("couplings cut off", 3),
    count_over!("no component", 0, [0]),
    count_over!("component count over the limit", 0, [65, 66, 256, 320, 65_535]),
    count_over!("phase count over the limit", 1, [513, 514, 768, 65_535]),
    count_over!("rule count over the limit", 2, [1_025, 1_026, 1_280, 65_535]),
    count_over!("coupling count over the limit", 3, [1_025, 1_026, 1_280, 65_535]),
    Damage {
        name: "phase count one too few",
        number: 5,
        apply: |random, model| {
            let count = model.phases.len().checked_sub(1)? as u16;
            Some(with_count(random, model, 1, count))
        },
    },
    Damage {
        name: "phase count one too many",
        number: 5,
        apply: |random, model| {
            let count = model.phases.len() + 1;
            (count <= PHASES).then(|| with_count(random, model, 1, count as u16))
        },
    },
    Damage {
        name: "phase sum that is right only in one byte",
        number: 5,
        apply: |random, model| {
            let count = model.phases.len() + 256;
            (count <= PHASES).then(|| with_count(random, model, 1, count as u16))
        },
    },
    Damage {
        name: "too many routes",
        number: 9,
        apply: |random, model| Some(with_many_routes(random, model)?.encode()),
    },
];

fn count_cut(random: &mut Random, model: &Model, section: usize) -> Option<Vec<u8>> {
    let mut file = model.encode();
    file.truncate(sections(model)[section] + random.index(2));
    Some(file)
}

/// A cut within the records; in half of the cases the first record is bad as well, which is not looked at.
fn records_cut(random: &mut Random, model: &Model, section: usize) -> Option<Vec<u8>> {
    let (begin, end) = (sections(model)[section] + 2, sections(model)[section + 1]);
    if begin == end {
        return None;
    }
    let mut file = model.encode();
    file.truncate(begin + random.index(end - begin));
    if random.percent(50) {
        for byte in file[begin..].iter_mut().take(4) {
            *byte = 254;
        }
    }
    Some(file)
}

/// The file with another count for a section: what follows the count is not looked at.
fn with_count(random: &mut Random, model: &Model, section: usize, count: u16) -> Vec<u8> {
    let at = sections(model)[section];
    let mut file = model.encode();
    file[at..at + 2].copy_from_slice(&count.to_le_bytes());
    spoilt_from(random, file, at + 2)
}

/// Adds an atomic in a coupled component of its own with more than 1,024 ways to the root.
pub fn with_many_routes(random: &mut Random, model: &Model) -> Option<Model> {
    let (inner, outer) = random.pick(&[(25, 41), (2, 513), (33, 32), (60, 60), (3, 340)]);
    let around = model.components.len();
    let fits = around + 2 <= COMPONENTS
        && model.phases.len() < PHASES
        && model.couplings.len() + inner + outer + 8 <= COUPLINGS;
    if !fits {
        return None;
    }
    let mut model = model.clone();
    model.components.push(Component::default());
    let atomic =
        Component { kind: 1, parent: around as u8, phase_count: 1, ..Component::default() };
    model.components.push(atomic);
    model.phases.push(Phase { advance: NEVER, ..Phase::default() });
    let row = |source: usize, target: usize| Coupling {
        source: source as u8,
        source_port: 0,
        target: target as u8,
        target_port: 0,
    };
    model.couplings.extend(vec![row(around + 1, around); inner]);
    model.couplings.extend(vec![row(around, 0); outer]);
    // 3 × 340 lacks five routes; the input side brings them.
    model.couplings.extend(vec![row(0, around); 5]);
    model.couplings.push(row(around, around + 1));
    model.couplings.sort();
    Some(model)
}
