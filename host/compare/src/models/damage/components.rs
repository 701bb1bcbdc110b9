//! Components that break a line: all get 4.

use super::{place, spoilt_after, Damage};
use crate::random::Random;
use reference::limits::COMPONENTS;
use reference::model::Model;
use reference::records::Component;

macro_rules! bad_component {
    ($name:literal, $break:expr) => {
        Damage { name: $name, number: 4, apply: |random, model| broken(random, model, $break) }
    };
}

pub const DAMAGES: [Damage; 18] = [
    bad_component!("root atomic", |_, model| change(model, Some(0), |root| root.kind = 1)),
    bad_component!("root with a parent byte", |_, model| {
        change(model, Some(0), |root| root.parent = 1)
    }),
    bad_component!("root with a phase count", |_, model| {
        change(model, Some(0), |root| root.phase_count = 1)
    }),
    bad_component!("root with an initial phase", |_, model| {
        change(model, Some(0), |root| root.initial_phase = 1)
    }),
    bad_component!("root with an order", |_, model| change(model, Some(0), |root| root.order = 1)),
    bad_component!("kind above 1", |random, model| {
        let kind = random.between(2, 255) as u8;
        let at = below_root(random, model, |_| true);
        change(model, at, |component| component.kind = kind)
    }),
    bad_component!("parent is itself", |random, model| {
        let at = below_root(random, model, |_| true);
        change(model, at, |component| component.parent = at.unwrap_or(0) as u8)
    }),
    bad_component!("parent is later or absent", |random, model| {
        let at = below_root(random, model, |_| true);
        let parent = random.between(at.unwrap_or(0) as u64 + 1, 255) as u8;
        change(model, at, |component| component.parent = parent)
    }),
    bad_component!("parent is atomic", |random, model| {
        let parent = below_root(random, model, Component::is_atomic)?;
        if parent + 1 == model.components.len() {
            return None;
        }
        let at = parent + 1 + random.index(model.components.len() - parent - 1);
        change(model, Some(at), |component| component.parent = parent as u8)
    }),
    bad_component!("nine ancestors", |random, model| {
        let first = model.components.len();
        if first + 9 > COMPONENTS {
            return None;
        }
        for number in 0..9 {
            let parent = if number == 0 { 0 } else { first + number - 1 };
            model.components.push(Component { parent: parent as u8, ..Component::default() });
        }
        if random.percent(50) {
            let last = model.components.last_mut()?;
            *last = Component { kind: 1, phase_count: 1, ..*last };
        }
        Some(())
    }),
    bad_component!("coupled with a phase count", |random, model| {
        let at = below_root(random, model, is_coupled);
        change(model, at, |component| component.phase_count = 1)
    }),
    bad_component!("coupled with an initial phase", |random, model| {
        let at = below_root(random, model, is_coupled);
        change(model, at, |component| component.initial_phase = 1)
    }),
    bad_component!("coupled with an order", |random, model| {
        let at = below_root(random, model, is_coupled);
        change(model, at, |component| component.order = 1)
    }),
    bad_component!("atomic without phases", |random, model| {
        let at = below_root(random, model, Component::is_atomic);
        change(model, at, |atomic| {
            *atomic = Component { phase_count: 0, initial_phase: 0, ..*atomic }
        })
    }),
    bad_component!("atomic with 65 phases", |random, model| {
        let at = below_root(random, model, Component::is_atomic);
        change(model, at, |atomic| atomic.phase_count = 65)
    }),
    bad_component!("atomic with 255 phases", |random, model| {
        let at = below_root(random, model, Component::is_atomic);
        change(model, at, |atomic| atomic.phase_count = 255)
    }),
    bad_component!("initial phase at the count", |random, model| {
        let at = below_root(random, model, Component::is_atomic);
        change(model, at, |atomic| atomic.initial_phase = atomic.phase_count)
    }),
    bad_component!("order above 1", |random, model| {
        let order = random.between(2, 255) as u8;
        let at = below_root(random, model, Component::is_atomic);
        change(model, at, |atomic| atomic.order = order)
    }),
];

fn broken(
    random: &mut Random,
    model: &Model,
    break_it: fn(&mut Random, &mut Model) -> Option<()>,
) -> Option<Vec<u8>> {
    let mut model = model.clone();
    break_it(random, &mut model)?;
    Some(spoilt_after(random, &model, 0))
}

fn change(model: &mut Model, at: Option<usize>, change: impl FnOnce(&mut Component)) -> Option<()> {
    change(&mut model.components[at?]);
    Some(())
}

fn below_root(
    random: &mut Random,
    model: &Model,
    condition: fn(&Component) -> bool,
) -> Option<usize> {
    place(random, &model.components[1..], condition).map(|at| at + 1)
}

fn is_coupled(component: &Component) -> bool {
    !component.is_atomic()
}
