//! Chains as stations draw them. Each station is a coupled component with a splitter, a hold and a
//! buffer: a cue is split, held, queued, and goes on to the next station; a copy goes to the root, and
//! a reset from the root clears hold and buffer.

use super::{Advance, Workload};
use reference::builder::{bag, phase, rule, Builder, NEVER};
use reference::records::{Phase, Rule};

pub const CUE: u16 = 7;
const RESET: u16 = 200;
const PERIOD: u32 = 40;
const HOLD: u32 = 10;
const QUEUE: u32 = 5;
const QUEUE_LENGTH: u8 = 3;

pub fn all() -> Vec<Workload> {
    vec![
        Workload::long_call("chain of 5 stations", &chain(5, 0, Some(PERIOD)), 4_000),
        Workload::long_call("chain of 15 stations", &chain(15, 0, Some(PERIOD)), 2_000),
        Workload::long_call("chain of 15 stations", &chain(15, 0, Some(PERIOD)), 2_000).lit(),
        Workload::long_call("chain of 8, 3 shells", &chain(8, 3, Some(PERIOD)), 2_000),
    ]
}

/// A chain that is called once for each cue, as an inserter does.
pub fn cue_calls() -> Workload {
    let calls = (1..=100).map(|cue| Advance { t: cue * 10, bag: bag(&[(0, CUE)]) });
    Workload::with_calls("15 stations, one cue", &chain_for_cues(15), calls.collect())
}

/// A chain of so many stations that takes its cues from the root.
pub fn chain_for_cues(stations: usize) -> Builder {
    chain(stations, 0, None)
}

/// A chain of stations, each inside so many shells, with a source of cues or the root's input 0.
fn chain(stations: usize, shells: usize, source_period: Option<u32>) -> Builder {
    let mut model = Builder::new();
    let mut before = match source_period {
        Some(period) => model.atomic(0, &[phase(period, 0, &[(0, CUE)])]),
        None => 0,
    };
    for _ in 0..stations {
        let station = station(&mut model, shells);
        model.couple(before, 0, station, 0);
        model.couple(0, 1, station, 1);
        model.couple(station, 1, 0, 1);
        before = station;
    }
    model.couple(before, 0, 0, 0);
    model
}

/// Answers the outermost component of a station. Input 0 takes cues and 1 resets; output 0 has the
/// cues that came through, and 1 a copy of each.
fn station(model: &mut Builder, shells: usize) -> usize {
    let outermost = model.coupled(0);
    let around = model.coupled_chain(outermost, shells);
    for shell in outermost..around {
        for port in 0..2 {
            model.couple(shell, port, shell + 1, port);
            model.couple(shell + 1, port, shell, port);
        }
    }
    let split = [phase(NEVER, 0, &[]), phase(0, 0, &[(0, CUE), (1, CUE)])];
    let splitter = model.atomic(around, &split);
    model.rule(rule(splitter, 0, CUE, 1));
    let hold = model.atomic(around, &[phase(NEVER, 0, &[]), phase(HOLD, 0, &[(0, CUE)])]);
    model.rule(rule(hold, 0, CUE, 1));
    model.rule(reset(hold, 1));
    let mut queue: Vec<Phase> = vec![phase(NEVER, 0, &[])];
    queue.extend((0..QUEUE_LENGTH).map(|left| phase(QUEUE, left, &[(0, CUE)])));
    let buffer = model.atomic(around, &queue);
    for waiting in 0..QUEUE_LENGTH {
        model.rule(rule(buffer, waiting, CUE, waiting + 1));
        model.rule(reset(buffer, waiting + 1));
    }
    model.couple(around, 0, splitter, 0);
    model.couple(around, 1, hold, 1);
    model.couple(around, 1, buffer, 1);
    model.couple(splitter, 0, hold, 0);
    model.couple(splitter, 1, around, 1);
    model.couple(hold, 0, buffer, 0);
    model.couple(buffer, 0, around, 0);
    outermost
}

fn reset(atomic: usize, phase: u8) -> Rule {
    Rule { port: 1, ..rule(atomic, phase, RESET, 0) }
}
