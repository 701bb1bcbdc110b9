//! Rules that break a line: all get 7.

use super::{place, spoilt_after, Damage};
use crate::random::Random;
use reference::model::Model;
use reference::records::{Component, Rule};

macro_rules! bad_rule {
    ($name:literal, $break:expr) => {
        Damage { name: $name, number: 7, apply: |random, model| broken(random, model, $break) }
    };
}

pub const DAMAGES: [Damage; 9] = [
    bad_rule!("rule of an absent component", |random, rule, model| {
        rule.component = random.between(model.components.len() as u64, 255) as u8;
        Some(())
    }),
    bad_rule!("rule of the root", |_, rule, _| {
        rule.component = 0;
        Some(())
    }),
    bad_rule!("rule of a coupled component", |random, rule, model| {
        let coupled = place(random, &model.components[1..], |component| !component.is_atomic())?;
        rule.component = coupled as u8 + 1;
        Some(())
    }),
    bad_rule!("phase at the count", |_, rule, model| {
        rule.phase = atomic_of(rule, model).phase_count;
        Some(())
    }),
    bad_rule!("rule's next phase at the count", |_, rule, model| {
        rule.next_phase = atomic_of(rule, model).phase_count;
        Some(())
    }),
    bad_rule!("phase of another atomic", |random, rule, model| {
        let own = atomic_of(rule, model).phase_count;
        let other = place(random, &model.components, |other| other.phase_count > own)?;
        rule.next_phase = model.components[other].phase_count - 1;
        Some(())
    }),
    bad_rule!("rule on port 4", |random, rule, _| {
        rule.port = random.pick(&[4, 5, 255]);
        Some(())
    }),
    bad_rule!("low value above the high one", |random, rule, _| {
        (rule.low_value, rule.high_value) = random.pick(&[(1, 0), (256, 1), (65_535, 65_534)]);
        Some(())
    }),
    bad_rule!("low elapsed above the high one", |random, rule, _| {
        (rule.low_elapsed, rule.high_elapsed) =
            random.pick(&[(1, 0), (256, 1), (4_294_967_295, 4_294_967_294), (65_536, 65_535)]);
        Some(())
    }),
];

fn atomic_of<'m>(rule: &Rule, model: &'m Model) -> &'m Component {
    &model.components[usize::from(rule.component)]
}

fn broken(
    random: &mut Random,
    model: &Model,
    break_it: fn(&mut Random, &mut Rule, &Model) -> Option<()>,
) -> Option<Vec<u8>> {
    let mut damaged = model.clone();
    let at = place(random, &model.rules, |_| true)?;
    break_it(random, &mut damaged.rules[at], model)?;
    Some(spoilt_after(random, &damaged, 2))
}
