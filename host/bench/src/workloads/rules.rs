//! As many rules as a model may have: 32 listeners with 32 rules each. A source sends another value at
//! each moment, and all listeners search their rules, under either reading of elapsed ranges.

use super::Workload;
use reference::builder::{phase, rule, Builder, NEVER};
use reference::ranges::Ranges;
use reference::records::{Phase, Rule};

const LISTENERS: usize = 32;
const PHASES: u8 = 4;
const VALUES: u8 = 8;

pub fn all() -> Vec<Workload> {
    let grouped = |listener: usize, number: usize| (listener, number);
    let scattered = |listener: usize, number: usize| (number, listener);
    let half_open = listeners(grouped).read_as(Ranges::HalfOpen);
    vec![
        Workload::long_call("1,024 rules, grouped", &listeners(grouped), 200),
        Workload::long_call("1,024 rules, scattered", &listeners(scattered), 200),
        Workload::long_call("1,024 rules, half-open", &half_open, 200),
    ]
}

/// The rules stand in the order of a key made of a rule's listener and its number among that one's.
fn listeners(order: impl Fn(usize, usize) -> (usize, usize)) -> Builder {
    let mut model = Builder::new();
    let values: Vec<Phase> =
        (0..VALUES).map(|value| phase(1, (value + 3) % VALUES, &[(0, u16::from(value))])).collect();
    let source = model.atomic(0, &values);
    model.couple(source, 0, 0, 0);
    let mut rules: Vec<((usize, usize), Rule)> = Vec::new();
    for number in 0..LISTENERS {
        let phases: Vec<Phase> = (0..PHASES).map(|own| phase(NEVER, own, &[])).collect();
        let listener = model.atomic_from(0, number as u8 % PHASES, 0, &phases);
        model.couple(source, 0, listener, 0);
        for own in 0..PHASES {
            for value in 0..VALUES {
                let place = order(number, usize::from(own * VALUES + value));
                let next = (own + value) % PHASES;
                rules.push((place, rule(listener, own, u16::from(value), next)));
            }
        }
    }
    rules.sort_by_key(|(place, _)| *place);
    rules.into_iter().for_each(|(_, rule)| model.rule(rule));
    model
}
