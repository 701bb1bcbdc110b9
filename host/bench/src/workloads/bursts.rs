//! Bursts of zero stays: 64 steps in each instant, every one of them seen at the root.

use super::{any_value, Workload};
use reference::builder::{phase, Builder, NEVER};
use reference::records::Phase;

const STEPS: u8 = 64;
const PERIOD: u32 = 10;

pub fn all() -> Vec<Workload> {
    vec![
        Workload::long_call("bursts of 64 zero stays", &burst(1, 1), 150),
        Workload::long_call("bursts past the scratch", &burst(4, 8), 150),
    ]
}

/// Each step puts out so many messages, along so many rows to the root. A listener hears each.
fn burst(outputs: usize, rows: usize) -> Builder {
    let mut model = Builder::new();
    let phases: Vec<Phase> = (0..STEPS)
        .map(|number| {
            let advance = if number == 0 { PERIOD } else { 0 };
            let messages: Vec<(u8, u16)> =
                (0..outputs).map(|k| (0, u16::from(number) + k as u16)).collect();
            phase(advance, (number + 1) % STEPS, &messages)
        })
        .collect();
    let source = model.atomic(0, &phases);
    let listener = model.atomic(0, &[phase(NEVER, 0, &[]), phase(NEVER, 0, &[])]);
    model.rule(any_value(listener, 0, 1, 1));
    model.rule(any_value(listener, 1, 1, 0));
    model.couple(source, 0, listener, 0);
    model.couple_times(rows, source, 0, 0, 0);
    model.couple(listener, 0, 0, 1);
    model
}
