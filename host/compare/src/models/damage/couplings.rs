//! Couplings that break a line: all get 8. The bad row stands at its place in the order, so that
//! nothing but its own fault can be the reason.

use super::{place, spoilt_after, Damage};
use crate::random::Random;
use reference::limits::COUPLINGS;
use reference::model::Model;
use reference::records::Coupling;

macro_rules! bad_row {
    ($name:literal, $row:expr) => {
        Damage { name: $name, number: 8, apply: |random, model| with_row(random, model, $row) }
    };
}

pub const DAMAGES: [Damage; 9] = [
    bad_row!("absent source", |random, model| {
        let present = random.index(model.components.len());
        let absent = random.between(model.components.len() as u64, 255) as usize;
        Some(row(random, absent, present))
    }),
    bad_row!("absent target", |random, model| {
        let present = random.index(model.components.len());
        let absent = random.between(model.components.len() as u64, 255) as usize;
        Some(row(random, present, absent))
    }),
    bad_row!("source port 4", |random, model| {
        let (component, around) = child(random, model)?;
        let source_port = random.pick(&[4, 5, 255]);
        Some(Coupling { source_port, ..row(random, component, around) })
    }),
    bad_row!("target port 4", |random, model| {
        let (component, around) = child(random, model)?;
        let target_port = random.pick(&[4, 5, 255]);
        Some(Coupling { target_port, ..row(random, around, component) })
    }),
    bad_row!("a component with itself", |random, model| {
        let component = random.index(model.components.len());
        Some(row(random, component, component))
    }),
    bad_row!("a component with its grandparent", |random, model| {
        let components = 1..model.components.len();
        let deep: Vec<usize> = components.filter(|&c| model.parent(c) != Some(0)).collect();
        let component = deep.get(random.index(deep.len().max(1))).copied()?;
        let grandparent = model.parent(model.parent(component)?)?;
        Some(match random.percent(50) {
            true => row(random, component, grandparent),
            false => row(random, grandparent, component),
        })
    }),
    bad_row!("components that are not related", |random, model| {
        let (source, target) =
            (random.index(model.components.len()), random.index(model.components.len()));
        model.relation(source, target).is_none().then(|| row(random, source, target))
    }),
    Damage {
        name: "rows fall",
        number: 8,
        apply: |random, model| {
            let mut model = model.clone();
            let at = place(random, &model.couplings, |row| *row != model.couplings[0])?;
            let before =
                model.couplings[..at].iter().rposition(|row| *row != model.couplings[at])?;
            model.couplings.swap(before, at);
            Some(spoilt_after(random, &model, 3))
        },
    },
    Damage {
        name: "rows fall that rise as little-endian numbers",
        number: 8,
        apply: |random, model| {
            let (component, around) = child(random, model)?;
            if around != 0 {
                return None;
            }
            let mut model = model.clone();
            let child = component as u8;
            let first = Coupling { source: child, source_port: 0, target: 0, target_port: 0 };
            let second = Coupling { source: 0, source_port: 3, target: child, target_port: 3 };
            model.couplings = vec![first, second];
            Some(spoilt_after(random, &model, 3))
        },
    },
];

/// A component below the root and its parent.
fn child(random: &mut Random, model: &Model) -> Option<(usize, usize)> {
    let below_root = model.components.len() - 1;
    if below_root == 0 {
        return None;
    }
    let component = 1 + random.index(below_root);
    Some((component, model.parent(component)?))
}

fn row(random: &mut Random, source: usize, target: usize) -> Coupling {
    let (source_port, target_port) = (random.below(4) as u8, random.below(4) as u8);
    Coupling { source: source as u8, source_port, target: target as u8, target_port }
}

fn with_row(
    random: &mut Random,
    model: &Model,
    make: fn(&mut Random, &Model) -> Option<Coupling>,
) -> Option<Vec<u8>> {
    if model.couplings.len() == COUPLINGS {
        return None;
    }
    let mut damaged = model.clone();
    damaged.couplings.push(make(random, model)?);
    damaged.couplings.sort();
    Some(spoilt_after(random, &damaged, 3))
}
