//! DEVStone-like nests, as large as the limits allow: 64 components, the innermost atomic with 8
//! ancestors. Each of seven coupled components, one inside the other, holds nine atomics beside the
//! next; the innermost holds one. A source outside sends to all of them.

use super::{any_value, timer, Workload};
use reference::builder::{phase, rule, Builder, NEVER};
use reference::records::Phase;

const LEVELS: usize = 7;
const WIDTH: usize = 9;
const PERIOD: u32 = 16;
const CUE: u16 = 7;
const STRAY: u16 = 9;

/// Which couplings there are beside those from the source to each atomic, and from the innermost
/// atomic to the root.
struct Shape {
    /// Each atomic of a level sends to the next one (HI).
    chained: bool,
    /// Each atomic also sends to the root (HO).
    to_root: bool,
    /// The source also sends at each moment between two cues, what no atomic has a rule for.
    strays: bool,
    /// How long an atomic works on what it got.
    stay: u32,
}

pub fn all() -> Vec<Workload> {
    let shape = |chained, to_root, stay| nest(&Shape { chained, to_root, strays: false, stay });
    let strays = Shape { chained: false, to_root: false, strays: true, stay: 10 };
    let periods = u64::from(PERIOD);
    vec![
        Workload::long_call("nest LI", &shape(false, false, 1), 100 * periods),
        Workload::long_call("nest HI", &shape(true, false, 1), 40 * periods),
        Workload::long_call("nest HO", &shape(true, true, 1), 40 * periods),
        Workload::long_call("nest HO, zero stays", &shape(true, true, 0), 40 * periods),
        Workload::long_call("nest LI, stray cues", &nest(&strays), 40 * periods),
        Workload::long_call("56 timers on 8 levels", &timers(), 400),
    ]
}

fn nest(shape: &Shape) -> Builder {
    let mut model = Builder::new();
    let source = model.atomic(0, &source_phases(shape.strays));
    let mut outside = source;
    let mut parent = 0;
    for level in 1..=LEVELS {
        let around = model.coupled(parent);
        model.couple(outside, 0, around, 0);
        model.couple(around, 0, parent, 0);
        if shape.to_root {
            model.couple(around, 1, parent, 1);
        }
        let atomics = if level == LEVELS { 1 } else { WIDTH };
        add_atomics(&mut model, around, atomics, level == LEVELS, shape);
        (outside, parent) = (around, around);
    }
    model
}

fn source_phases(strays: bool) -> Vec<Phase> {
    if !strays {
        return vec![phase(PERIOD, 0, &[(0, CUE)])];
    }
    let count = PERIOD as u8;
    let at_each_moment = |number: u8| {
        let value = if number == 0 { CUE } else { STRAY };
        phase(1, (number + 1) % count, &[(0, value)])
    };
    (0..count).map(at_each_moment).collect()
}

fn add_atomics(model: &mut Builder, around: usize, count: usize, innermost: bool, shape: &Shape) {
    let mut before = None;
    for _ in 0..count {
        let phases = [phase(NEVER, 0, &[]), phase(shape.stay, 0, &[(0, 1)])];
        let atomic = model.atomic(around, &phases);
        model.rule(match shape.strays {
            true => rule(atomic, 0, CUE, 1),
            false => any_value(atomic, 0, 1, 1),
        });
        model.couple(around, 0, atomic, 0);
        if innermost {
            model.couple(atomic, 0, around, 0);
        } else if shape.to_root {
            model.couple(atomic, 0, around, 1);
        }
        if let Some(before) = before.filter(|_| shape.chained) {
            model.couple(before, 0, atomic, 0);
        }
        before = Some(atomic);
    }
}

/// Seven timers on each level; one is due at each moment, and its message goes up to the root.
fn timers() -> Builder {
    let mut model = Builder::new();
    let mut parent = 0;
    let mut number = 0;
    for level in 0..=LEVELS {
        if level > 0 {
            let inside = model.coupled(parent);
            model.couple(inside, 0, parent, 0);
            parent = inside;
        }
        for _ in 0..7 {
            number += 1;
            let atomic = model.atomic(parent, &timer(number, 56, number as u16));
            model.couple(atomic, 0, parent, 0);
        }
    }
    model
}
