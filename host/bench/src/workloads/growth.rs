//! Series of models in which one size grows and the others stay.

use super::{any_value, timer, Workload};
use reference::builder::{phase, Builder, NEVER};
use reference::records::{Message, Phase};

/// Workloads by a growing size.
pub struct Series {
    /// What grows.
    pub name: &'static str,
    pub points: Vec<(u64, Workload)>,
}

impl Series {
    fn new(name: &'static str, sizes: &[usize], t: u64, model: impl Fn(usize) -> Builder) -> Self {
        let point = |&size: &usize| {
            let workload = Workload::long_call(format!("{name} {size}"), &model(size), t);
            (size as u64, workload)
        };
        Series { name, points: sizes.iter().map(point).collect() }
    }
}

pub fn all() -> Vec<Series> {
    let bags = [4, 16, 64, 256, 1_024, 4_096];
    let rows = [32, 128, 256, 512, 1_024];
    vec![
        Series::new("components, one due", &[8, 16, 32, 64], 200, one_due),
        Series::new("components, all due", &[8, 16, 32, 64], 200, all_due),
        Series::new("depth", &[1, 2, 3, 4, 5, 6, 7, 8], 200, deep),
        Series::new("couplings, idle", &rows, 200, idle_couplings),
        Series::new("couplings, carrying", &rows, 50, carrying_couplings),
        Series::new("messages in a bag", &bags, 50, atomic_bag),
        Series::new("messages at the root", &bags, 20, root_bag),
    ]
}

/// Timers under the root, one due at each moment.
fn one_due(components: usize) -> Builder {
    let mut model = Builder::new();
    for number in 1..components {
        let phases = timer(number as u32, components as u32 - 1, number as u16);
        let atomic = model.atomic(0, &phases);
        model.couple(atomic, 0, 0, 0);
    }
    model
}

/// Timers under the root, all due at each moment.
fn all_due(components: usize) -> Builder {
    let mut model = Builder::new();
    for number in 1..components {
        let atomic = model.atomic(0, &timer(1, 1, number as u16));
        model.couple(atomic, 0, 0, 0);
    }
    model
}

/// All models of the series on depth have so many components.
const DEPTH_COMPONENTS: usize = 33;

/// A timer with so many ancestors sends to a listener with as many, up one branch and down another.
fn deep(ancestors: usize) -> Builder {
    let mut model = Builder::new();
    let (above_sender, sender) = branch(&mut model, ancestors, &timer(1, 1, 7));
    let (above_listener, listener) = branch(&mut model, ancestors, &RESTING);
    add_toggle(&mut model, listener, 1);
    for inside in above_sender + 1..=sender {
        model.couple(inside, 0, inside - 1, 0);
    }
    model.couple(above_sender, 0, above_listener, 0);
    for inside in above_listener + 1..=listener {
        model.couple(inside - 1, 0, inside, 0);
    }
    for _ in listener + 1..DEPTH_COMPONENTS {
        model.atomic(0, &RESTING);
    }
    model
}

/// A branch of components, each the child of the one before, that ends in an atomic with so many
/// ancestors. Answers its first and its last component.
fn branch(model: &mut Builder, ancestors: usize, phases: &[Phase]) -> (usize, usize) {
    if ancestors == 1 {
        let atomic = model.atomic(0, phases);
        return (atomic, atomic);
    }
    let first = model.coupled(0);
    let around = model.coupled_chain(first, ancestors - 2);
    (first, model.atomic(around, phases))
}

const RESTING: [Phase; 2] = {
    let none = Message { port: 0, value: 0 };
    [Phase { advance: NEVER, next_phase: 0, output_count: 0, slots: [none; 4] }; 2]
};

/// An atomic in two resting phases goes from one to the other with every bag of so many messages.
fn add_toggle(model: &mut Builder, atomic: usize, least_count: u16) {
    model.rule(any_value(atomic, 0, least_count, 1));
    model.rule(any_value(atomic, 1, least_count, 0));
}

/// So many couplings, all but one between atomics that rest; beside them a timer.
fn idle_couplings(rows: usize) -> Builder {
    let mut model = Builder::new();
    let timer = model.atomic(0, &timer(1, 1, 7));
    model.couple(timer, 0, 0, 0);
    let resting: Vec<usize> = (0..32).map(|_| model.atomic(0, &RESTING)).collect();
    for row in 0..rows - 1 {
        let source = row % 32;
        let target = (source + 1 + (row / 32) % 31) % 32;
        model.couple(resting[source], 0, resting[target], 0);
    }
    model
}

/// So many couplings from 16 timers, all due at each moment, to 16 listeners.
fn carrying_couplings(rows: usize) -> Builder {
    let mut model = Builder::new();
    let timers: Vec<usize> = (0..16).map(|value| model.atomic(0, &timer(1, 1, value))).collect();
    let listeners: Vec<usize> = (0..16).map(|_| model.atomic(0, &RESTING)).collect();
    listeners.iter().for_each(|&listener| add_toggle(&mut model, listener, 1));
    for row in 0..rows {
        model.couple(timers[row % 16], 0, listeners[row / 16 % 16], 0);
    }
    model
}

/// A listener gets so many messages at each moment, from one timer along many couplings.
fn atomic_bag(messages: usize) -> Builder {
    let mut model = Builder::new();
    let timer = model.atomic(0, &[phase(1, 0, &[(0, 1), (0, 2), (0, 3), (0, 4)])]);
    let listener = model.atomic(0, &RESTING);
    add_toggle(&mut model, listener, messages as u16);
    model.couple_times(messages / 4, timer, 0, listener, 0);
    model
}

/// The root's output bag has so many messages at each moment.
fn root_bag(messages: usize) -> Builder {
    let mut model = Builder::new();
    let timers = (messages / 4).min(16);
    for number in 0..timers as u16 {
        let outputs = [0, 1, 2, 3].map(|k| (0, 1_000 * k + (7 * number) % 16));
        let timer = model.atomic(0, &[phase(1, 0, &outputs)]);
        model.couple_times(messages / 4 / timers, timer, 0, 0, 0);
    }
    model
}
