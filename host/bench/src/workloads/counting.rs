//! Searches in which counting is what costs: an atomic gets a bag and tries many rules of its phase, each of
//! which counts the whole bag, before the last one decides.

use super::{any_value, Advance, Workload};
use reference::builder::{bag, phase, Builder, NEVER};
use reference::records::Rule;

const RULES: usize = 32;
/// What is sent, or given, on one port. Along 1,024 couplings the second makes the largest bag that an atomic
/// can get.
const SENT: [(u8, u16); 4] = [(0, 1), (0, 2), (0, 3), (0, 4)];
const GIVEN: u16 = 16;

pub fn all() -> Vec<Workload> {
    vec![
        Workload::long_call("64 messages, 32 rules", &sent_along(16), 200),
        Workload::long_call("4,096 messages, 32 rules", &sent_along(1_024), 20),
    ]
}

/// Calls of one step each.
pub fn largest_bag_calls() -> Workload {
    let messages: Vec<(u8, u16)> = (1..=GIVEN).map(|value| (0, value)).collect();
    let calls = (0..4).map(|t| Advance { t, bag: bag(&messages) });
    let mut model = Builder::new();
    add_listener(&mut model, 0, 1_024, GIVEN);
    Workload::with_calls("16,384 messages, 32 rules", &model, calls.collect())
}

/// A timer sends at each moment along so many couplings.
fn sent_along(rows: u16) -> Builder {
    let mut model = Builder::new();
    let timer = model.atomic(0, &[phase(1, 0, &SENT)]);
    add_listener(&mut model, timer, rows, SENT.len() as u16);
    model
}

/// An atomic that gets a message of each value up to the highest along each of so many couplings. Each rule
/// but the last leaves the highest value out and wants one message more than meet it. The bag has so many, so
/// that its length does not tell that the rule fails.
fn add_listener(model: &mut Builder, source: usize, rows: u16, highest: u16) {
    let listener = model.atomic(0, &[phase(NEVER, 0, &[]), phase(NEVER, 1, &[])]);
    model.couple_times(usize::from(rows), source, 0, listener, 0);
    let fails = any_value(listener, 0, rows * (highest - 1) + 1, 1);
    let fails = Rule { high_value: highest - 1, ..fails };
    (1..RULES).for_each(|_| model.rule(fails));
    model.rule(any_value(listener, 0, rows * highest, 0));
}
