//! Short calls on a small and on a maximal model, idle and with a bag.

use super::{any_value, counting, stations, Advance, Workload};
use reference::builder::{bag, phase, rule, Builder, NEVER};
use reference::records::Phase;

pub fn all() -> Vec<Workload> {
    vec![
        Workload::with_calls("small, idle", &small(), idle_calls(400)),
        Workload::with_calls("small, one bag", &small(), bag_calls(400)),
        Workload::with_calls("small, one bag", &small(), bag_calls(400)).lit(),
        stations::cue_calls(),
        Workload::with_calls("maximal, idle", &maximal(), idle_calls(40)),
        Workload::with_calls("maximal, one bag", &maximal(), bag_calls(40)),
        Workload::with_calls("maximal, one bag", &maximal(), bag_calls(40)).lit(),
        counting::largest_bag_calls(),
    ]
}

/// Calls that find nothing to do.
pub fn idle_calls(count: u64) -> Vec<Advance> {
    (0..count).map(|t| Advance { t, bag: Vec::new() }).collect()
}

/// Calls of one step each.
pub fn bag_calls(count: u64) -> Vec<Advance> {
    (0..count).map(|t| Advance { t, bag: bag(&[(0, 7)]) }).collect()
}

/// Two atomics, as in the papers' cue source, but the first waits for long and the second also
/// hears the root.
pub fn small() -> Builder {
    let mut model = Builder::new();
    let source = model.atomic(0, &[phase(1_000_000, 1, &[(0, 7)]), phase(0, 0, &[(0, 8)])]);
    let phases = [phase(NEVER, 0, &[]), phase(500_000, 0, &[(0, 100)])];
    let second = model.atomic(0, &phases);
    model.rule(rule(second, 0, 7, 1));
    model.rule(rule(second, 1, 7, 0));
    model.couple(0, 0, second, 0);
    model.couple(source, 0, second, 0);
    model.couple(second, 0, 0, 0);
    model
}

const LEVELS: usize = 8;
const ATOMICS_OF_A_LEVEL: usize = 7;
/// Pairs of siblings that are joined by three rows; the others by two.
const PAIRS_WITH_THREE_ROWS: usize = 226;

/// Every section at its limit: 64 components on 8 levels, 512 phases, 1,024 rules, 1,024 couplings;
/// and 1,010 routes.
pub fn maximal() -> Builder {
    let mut model = Builder::new();
    let mut parent = 0;
    let mut pairs = 0;
    for level in 0..LEVELS {
        if level > 0 {
            let inside = model.coupled(parent);
            model.couple(parent, 0, inside, 0);
            model.couple(inside, 0, parent, 0);
            parent = inside;
        }
        let first = level * ATOMICS_OF_A_LEVEL;
        let atomics: Vec<usize> = (first..first + ATOMICS_OF_A_LEVEL)
            .map(|number| add_waiting(&mut model, parent, number))
            .collect();
        for &source in &atomics {
            for &target in atomics.iter().filter(|&&target| target != source) {
                let rows = if pairs < PAIRS_WITH_THREE_ROWS { 3 } else { 2 };
                (1..=rows).for_each(|port| model.couple(source, port, target, port));
                pairs += 1;
            }
        }
    }
    model
}

/// An atomic that hears its parent and sends to it. 56 of them have 512 phases and 1,024 rules.
fn add_waiting(model: &mut Builder, parent: usize, number: usize) -> usize {
    let phase_count = if number < 8 { 10 } else { 9 };
    let rule_count = if number < 16 { 19 } else { 18 };
    let phases: Vec<Phase> = (0..phase_count)
        .map(|own| phase(1_000_000, own, &[(0, 1), (1, 2), (2, 3), (3, 4)]))
        .collect();
    let atomic = model.atomic(parent, &phases);
    for rule in 0..rule_count {
        model.rule(any_value(atomic, rule % phase_count, 1, (rule + 1) % phase_count));
    }
    model.couple(parent, 0, atomic, 0);
    model.couple(atomic, 0, parent, 0);
    atomic
}
