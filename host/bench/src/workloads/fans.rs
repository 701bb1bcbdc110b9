//! Dense fan-out: everything is due at each moment, and every bag is large.

use super::{any_value, Workload};
use reference::builder::{phase, Builder, NEVER};

pub fn all() -> Vec<Workload> {
    vec![
        Workload::long_call("each of 32 to each", &each_to_each(32), 40),
        Workload::long_call("hub, 31 to 31", &hub(31, 31, 0, 1), 40),
        Workload::long_call("hub, 4 up and 4 down", &hub(28, 27, 4, 4), 40),
    ]
}

/// Every atomic sends to every other one and to the root.
fn each_to_each(count: usize) -> Builder {
    let mut model = Builder::new();
    for value in 0..count {
        let phases = [0, 1].map(|next| phase(1, next, &[(0, value as u16)]));
        let atomic = model.atomic(0, &phases);
        model.rule(any_value(atomic, 0, count as u16 / 2, 1));
        model.rule(any_value(atomic, 1, count as u16 / 2, 0));
    }
    for source in 1..=count {
        model.couple(source, 0, 0, 0);
        for target in (1..=count).filter(|&target| target != source) {
            model.couple(source, 0, target, 0);
        }
    }
    model
}

/// Sources, so many coupled components deep, join in one port; from there it goes down again to
/// each of the sinks.
fn hub(sources: usize, sinks: usize, up: usize, down: usize) -> Builder {
    let mut model = Builder::new();
    let above_sources = model.coupled_chain(0, up);
    for shell in 2..=above_sources {
        model.couple(shell, 0, shell - 1, 0);
    }
    let hub = model.coupled(0);
    let above_sinks = model.coupled_chain(hub, down - 1);
    for shell in hub + 1..=above_sinks {
        model.couple(shell - 1, 0, shell, 0);
    }
    for value in 0..sources {
        let source = model.atomic(above_sources, &[phase(1, 0, &[(0, value as u16)])]);
        if up == 0 {
            model.couple(source, 0, hub, 0);
        } else {
            model.couple(source, 0, above_sources, 0);
        }
    }
    if up > 0 {
        model.couple(1, 0, hub, 0);
    }
    for _ in 0..sinks {
        let sink = model.atomic(above_sinks, &[phase(NEVER, 0, &[]), phase(NEVER, 0, &[])]);
        model.rule(any_value(sink, 0, sources as u16, 1));
        model.rule(any_value(sink, 1, sources as u16, 0));
        model.couple(above_sinks, 0, sink, 0);
    }
    model
}
