//! Chains as stations have them: cues pass from station to station, each a coupled component with
//! a hold in it, some wrapped deeper, with resets from the root and alarms to the root.

use super::readings;
use crate::random::Random;
use reference::builder::{phase, rule, Builder, NEVER};
use reference::limits::UNBOUNDED;
use reference::model::Model;
use reference::records::Rule;

/// A cue that starts a hold, and one that clears it.
pub const CUE: u16 = 7;
pub const RESET: u16 = 200;

/// A chain of stations. Root input 0 takes cues, input 1 resets; output 0 has the cues that came
/// through, output 1 the alarms.
pub fn chain(random: &mut Random) -> Model {
    let mut builder = Builder::new();
    let stations = random.between(1, 10) as usize;
    // Few stations have room for shells down to the lowest level.
    let most_levels = if stations <= 7 && random.percent(30) { 7 } else { 3 };
    let mut previous = None;
    if random.percent(70) {
        let every = random.pick(&[10, 10, 25, 40]);
        let source = builder.atomic(0, &[phase(every, 1, &[(0, CUE)]), phase(0, 0, &[(0, 8)])]);
        previous = Some(source);
    }
    for _ in 0..stations {
        let levels = random.between(1, most_levels) as usize;
        let station = station(random, &mut builder, levels);
        builder.couple(previous.unwrap_or(0), 0, station, 0);
        builder.couple(0, 1, station, 1);
        builder.couple(station, 1, 0, 1);
        previous = Some(station);
    }
    builder.couple(previous.expect("one station at least"), 0, 0, 0);
    let mut model = builder.model();
    readings::read_in_either_way(random, &mut model);
    model
}

/// A hold inside so many coupled components. Answers the outermost.
fn station(random: &mut Random, builder: &mut Builder, levels: usize) -> usize {
    let outermost = builder.coupled(0);
    let innermost = builder.coupled_chain(outermost, levels - 1);
    let hold = random.pick(&[0, 3, 5, 10, 10, 25]);
    let order = random.below(2) as u8;
    let phases = [
        phase(NEVER, 0, &[]),
        phase(hold, 0, &[(0, CUE)]),
        phase(0, 0, &[(1, 9)]),
        phase(15, 0, &[(0, CUE), (0, CUE)]),
    ];
    let atomic = builder.atomic_from(innermost, 0, order, &phases);
    builder.rule(rule(atomic, 0, CUE, 1));
    // Two cues close together are an alarm, two at once make a longer hold.
    builder.rule(Rule { least_count: 2, ..rule(atomic, 1, CUE, 3) });
    builder.rule(Rule { low_elapsed: 0, high_elapsed: 4, ..rule(atomic, 1, CUE, 2) });
    for from in 1..4 {
        let reset = Rule { port: 1, high_elapsed: UNBOUNDED, ..rule(atomic, from, RESET, 0) };
        builder.rule(reset);
    }
    let mut inside = atomic;
    for around in (outermost..=innermost).rev() {
        for port in 0..2 {
            builder.couple(around, port, inside, port);
            builder.couple(inside, port, around, port);
        }
        inside = around;
    }
    outermost
}
