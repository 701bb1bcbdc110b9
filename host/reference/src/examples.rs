//! Models whose outcome is known beforehand: the papers' worked example and some that stand at a limit.

use crate::builder::{phase, rule, Builder, NEVER};
use crate::limits::UNBOUNDED;
use crate::records::{Phase, Rule};

/// "The two-phase cue source": component 2 with the given order, and the first coupling so many times.
pub fn cue_source(order_of_second: u8, first_coupling: usize) -> Builder {
    let mut model = Builder::new();
    let source = model.atomic(0, &[phase(10, 1, &[(0, 7)]), phase(0, 0, &[(0, 8)])]);
    let phases = [phase(NEVER, 0, &[]), phase(5, 0, &[(0, 100)]), phase(10, 0, &[(1, 8)])];
    let second = model.atomic_from(0, 0, order_of_second, &phases);
    model.rule(rule(second, 0, 7, 1));
    model.rule(rule(second, 1, 8, 2));
    model.couple_times(first_coupling, source, 0, second, 0);
    model.couple(second, 0, 0, 0);
    model.couple(second, 1, 0, 1);
    model
}

/// One atomic of one phase with advance 0 and itself as next phase: no instant of it ends.
pub fn endless() -> Builder {
    let mut model = Builder::new();
    model.atomic(0, &[phase(0, 0, &[])]);
    model
}

/// How a `zero_stay_counter` counts.
#[derive(Clone, Copy, Debug)]
pub struct Counting {
    /// Whether it waits for a given message (0, 5) and counts the step that brings it.
    pub by_bag: bool,
    pub cycle: u8,
    pub rounds: u8,
    pub tail: u8,
}

impl Counting {
    /// The steps of its one instant.
    pub fn steps(&self) -> u64 {
        let rounds = u64::from(self.cycle) * u64::from(self.rounds);
        u64::from(self.by_bag) + rounds + 1 + u64::from(self.tail)
    }
}

/// Two atomics that take a known number of zero-stay steps in one instant and then rest. The first
/// goes round a cycle of phases and tells the second of each round; after the last round the second
/// stops it, and the first runs down a tail of phases. Each round and the stop are seen at the root.
pub fn zero_stay_counter(counting: Counting) -> Builder {
    let Counting { by_bag, cycle, rounds, tail } = counting;
    let mut model = Builder::new();
    let rest = cycle + tail;
    let mut first_phases = Vec::new();
    for number in 0..cycle {
        let ends_round = number + 1 == cycle;
        let outputs: &[(u8, u16)] = if ends_round { &[(0, 1)] } else { &[] };
        first_phases.push(phase(0, if ends_round { 0 } else { number + 1 }, outputs));
    }
    for number in cycle..rest {
        first_phases.push(phase(0, number + 1, &[]));
    }
    first_phases.push(phase(NEVER, rest, &[]));
    let first = model.atomic_from(0, if by_bag { rest } else { 0 }, 0, &first_phases);
    let mut second_phases: Vec<_> = (0..rounds).map(|number| phase(NEVER, number, &[])).collect();
    second_phases.push(phase(0, rounds + 1, &[(0, 9)]));
    second_phases.push(phase(NEVER, rounds + 1, &[]));
    let second = model.atomic(0, &second_phases);
    for number in 0..cycle {
        model.rule(rule(first, number, 9, cycle));
    }
    model.rule(Rule { port: 1, ..rule(first, rest, 5, 0) });
    for number in 0..rounds {
        model.rule(rule(second, number, 1, number + 1));
    }
    model.couple(0, 0, first, 1);
    model.couple(first, 0, second, 0);
    model.couple(first, 0, 0, 0);
    model.couple(second, 0, first, 0);
    model.couple(second, 0, 0, 1);
    model
}

/// An atomic with `ancestors` ancestors whose rows to its parent, and theirs on to the root's child,
/// stand `times` times each, but none leads to the root: no route, and times^(ancestors − 1) ways.
pub fn dead_ways(ancestors: usize, times: usize) -> Builder {
    let mut model = Builder::new();
    let innermost = model.coupled_chain(0, ancestors - 1);
    let atomic = model.atomic(innermost, &[phase(1, 0, &[(0, 1), (0, 2), (0, 3), (0, 4)])]);
    for child in 2..=atomic {
        model.couple_times(times, child, 0, child - 1, 0);
    }
    model
}

/// A source `up` levels deep, a chain of empty coupled components beside it, and `times` rows for
/// each link up, across and down: no route, and times^(links) ways.
pub fn dead_ways_up_and_down(levels: usize, times: usize) -> Builder {
    let mut model = Builder::new();
    let innermost = model.coupled_chain(0, levels - 1);
    let atomic = model.atomic(innermost, &[phase(1, 0, &[(0, 1), (0, 2)])]);
    let beside = model.coupled(0);
    let bottom = model.coupled_chain(beside, levels - 1);
    for child in 2..=atomic {
        model.couple_times(times, child, 0, child - 1, 0);
    }
    model.couple_times(times, 1, 0, beside, 0);
    for child in beside + 1..=bottom {
        model.couple_times(times, child - 1, 0, child, 0);
    }
    model
}

/// An atomic two levels deep, each of the two links to the root repeated: inner × outer routes.
/// It puts out four messages at moment 3, so the root bag has four for each route.
pub fn repeated_way_out(inner: usize, outer: usize) -> Builder {
    let outputs = [(0, 9), (0, 256), (0, 256), (0, 300)];
    way_out(&[phase(3, 1, &outputs), phase(NEVER, 0, &[])], inner, outer)
}

/// The same with these phases.
pub fn way_out(phases: &[Phase], inner: usize, outer: usize) -> Builder {
    let mut model = Builder::new();
    let around = model.coupled(0);
    let atomic = model.atomic(around, phases);
    model.couple_times(inner, atomic, 0, around, 0);
    model.couple_times(outer, around, 0, 0, 1);
    model
}

/// The same with 1,024 routes and instants at 3, 6, 9 and so on, each of so many steps, 64 at most. Every step
/// puts four messages out, so that every root bag has 4,096. 100 rows more lead no further than the component
/// around the atomic, and so does what is given at the root's input 0.
pub fn full_root_bags(steps: u8) -> Builder {
    let phase_of = |step: u8| {
        let value = u16::from(step);
        let outputs = [(0, value), (0, 256), (0, 256), (0, 300 + value)];
        phase(if step == 0 { 3 } else { 0 }, (step + 1) % steps, &outputs)
    };
    let phases: Vec<Phase> = (0..steps).map(phase_of).collect();
    let mut model = way_out(&phases, 32, 32);
    model.couple_times(100, 2, 0, 1, 3);
    model.couple(0, 0, 1, 0);
    model
}

/// An atomic with `rows` rows from the root's input and a rule that wants `least` messages: with a
/// given bag of 16 its own bag has 16 for each row.
pub fn atomic_behind_rows(rows: usize, least: u16) -> Builder {
    let mut model = Builder::new();
    let atomic = model.atomic(0, &[phase(NEVER, 0, &[]), phase(7, 0, &[(2, 1)])]);
    let any_value = Rule { low_value: 0, high_value: 65_535, ..rule(atomic, 0, 0, 1) };
    model.rule(Rule { least_count: least, ..any_value });
    model.couple_times(rows, 0, 0, atomic, 0);
    model
}

/// What a `hold` hears on its port 0. It has no rule for the last.
pub const CUE: u16 = 7;
pub const AGAIN: u16 = 8;
pub const AT_FOUR: u16 = 4;
pub const AT_THE_END: u16 = 5;
pub const EARLY: u16 = 1;
pub const LATE: u16 = 2;
pub const STRAY: u16 = 9;

/// A hold with so many ancestors, joined to the root's input 0 and output 0 through all of them;
/// component 1 is the hold itself, or the outermost one around it. It rests in phase 0 until a cue,
/// holds it for 5 in phase 1, pauses for 7 in phase 2, and rests. The other cues lead to phase 3, or
/// begin the hold again, at the elapsed times that stand in their rules.
pub fn hold(ancestors: usize, order: u8) -> Builder {
    let mut model = Builder::new();
    let innermost = model.coupled_chain(0, ancestors - 1);
    let phases = [
        phase(NEVER, 0, &[]),
        phase(5, 2, &[(0, 100)]),
        phase(7, 0, &[(0, 200)]),
        phase(NEVER, 4, &[]),
        phase(NEVER, 4, &[]),
    ];
    let hold = model.atomic_from(innermost, 0, order, &phases);
    for (from, cue, low_elapsed, high_elapsed, to) in [
        (0, CUE, 0, UNBOUNDED, 1),
        (0, EARLY, 0, 5, 3),
        (0, LATE, UNBOUNDED, UNBOUNDED, 3),
        (1, AGAIN, 0, UNBOUNDED, 1),
        (1, AT_FOUR, 4, 4, 3),
        (1, AT_THE_END, 5, 5, 3),
        (2, AT_THE_END, 0, 0, 3),
    ] {
        model.rule(Rule { low_elapsed, high_elapsed, ..rule(hold, from, cue, to) });
    }
    for inside in 1..=hold {
        model.couple(inside - 1, 0, inside, 0);
        model.couple(inside, 0, inside - 1, 0);
    }
    model
}

/// A hold, and a source beside it, or beside the outermost component around it, that sends it a stray
/// every 2.
pub fn hold_among_strays(ancestors: usize, order: u8) -> Builder {
    let mut model = hold(ancestors, order);
    let source = model.atomic(0, &[phase(2, 0, &[(0, STRAY)])]);
    model.couple(source, 0, 1, 0);
    model
}

/// A tick every 5, with so many ancestors, that has no rule for what comes from the root's input 0.
pub fn tick_among_strays(ancestors: usize, order: u8) -> Builder {
    let mut model = Builder::new();
    let innermost = model.coupled_chain(0, ancestors - 1);
    let tick = model.atomic_from(innermost, 0, order, &[phase(5, 0, &[])]);
    (1..=tick).for_each(|inside| model.couple(inside - 1, 0, inside, 0));
    model
}

/// What a `relayed_hold` hears beside the cues of a `hold`: it flashes, and its relay jams.
pub const FLASH: u16 = 3;
pub const JAM: u16 = 6;

/// Where the relay and the hold of a `relayed_hold` stand among its atomics.
pub const RELAY: usize = 0;
pub const RELAYED: usize = 1;

/// A hold with so many ancestors that hears the root's input 0, and a relay under the root that hears
/// input 1 and tells the hold of it one step later: several steps at one moment. The relay sends the
/// first cue by itself at 4. It stands before the hold in the file, and after it in the tree where
/// there are components around the hold. The hold flashes in phase 2, for no time, and pauses in phase 3.
pub fn relayed_hold(ancestors: usize, order: u8) -> Builder {
    let mut model = Builder::new();
    let outermost = model.coupled_chain(0, usize::from(ancestors > 1));
    let relay_phases = [
        phase(4, 1, &[(0, CUE)]),
        phase(NEVER, 1, &[]),
        phase(0, 1, &[(0, CUE), (0, AGAIN)]),
        phase(0, 1, &[(0, STRAY)]),
        phase(0, 4, &[]),
    ];
    let relay = model.atomic(0, &relay_phases);
    let innermost = model.coupled_chain(outermost, ancestors.saturating_sub(2));
    let hold_phases = [
        phase(NEVER, 0, &[]),
        phase(5, 0, &[(0, 100)]),
        phase(0, 3, &[(0, 101)]),
        phase(7, 0, &[(0, 102)]),
    ];
    let hold = model.atomic_from(innermost, 0, order, &hold_phases);
    for (cue, to) in [(CUE, 2), (STRAY, 3), (JAM, 4)] {
        model.rule(Rule { port: 1, ..rule(relay, 1, cue, to) });
    }
    for (from, cue, low_elapsed, high_elapsed, to) in [
        (0, CUE, 0, UNBOUNDED, 1),
        (1, AGAIN, 0, UNBOUNDED, 1),
        (1, FLASH, 0, UNBOUNDED, 2),
        (1, AT_THE_END, 5, 5, 3),
        (0, AT_THE_END, 0, 0, 3),
    ] {
        model.rule(Rule { low_elapsed, high_elapsed, ..rule(hold, from, cue, to) });
    }
    let way_down: Vec<usize> = (0..=hold).filter(|&component| component != relay).collect();
    for pair in way_down.windows(2) {
        model.couple(pair[0], 0, pair[1], 0);
        model.couple(pair[1], 0, pair[0], 0);
    }
    model.couple(0, 1, relay, 1);
    model.couple(relay, 0, way_down[1], 0);
    model
}

/// An atomic with so many ancestors, joined to the root's input 0 through all of them, that hears a cue in
/// phase 0, which lasts for `advance`. Each range of elapsed times, of which there are two at most, has a
/// rule for the cue: the first leads to phase 1, the second to phase 2. Where the atomic is due just then,
/// either order leads to phase 3 without a rule, and to 4 and 5 by the first and the second range.
pub fn cue_in_ranges(ancestors: usize, order: u8, advance: u32, ranges: &[(u32, u32)]) -> Builder {
    let mut model = Builder::new();
    let innermost = model.coupled_chain(0, ancestors - 1);
    let phases = [(advance, 3), (NEVER, 4), (NEVER, 5), (NEVER, 3), (NEVER, 4), (NEVER, 5)];
    let phases = phases.map(|(advance, next)| phase(advance, next, &[]));
    let atomic = model.atomic_from(innermost, 0, order, &phases);
    for (to, &(low_elapsed, high_elapsed)) in (1..).zip(ranges) {
        // Order 0 searches in phase 3, where phase 0 leads by itself.
        for (from, to) in [(0, to), (3, 3 + to)] {
            model.rule(Rule { low_elapsed, high_elapsed, ..rule(atomic, from, CUE, to) });
        }
    }
    (1..=atomic).for_each(|inside| model.couple(inside - 1, 0, inside, 0));
    model
}

/// Rows from the root, or to it, and rows inside of the component that they lead to, or come from.
pub type Rows = (usize, usize);

/// An atomic two levels deep that puts out four messages at moment 3, and four others at once where it finds 16
/// cues of each route in a bag, whichever its order: at 3 as well as later.
pub fn echo(order: u8, rows_in: Rows, rows_out: Rows) -> Builder {
    let mut model = Builder::new();
    let around = model.coupled(0);
    let phases = [
        phase(3, 1, &[(0, 1), (0, 2), (0, 256), (0, 256)]),
        phase(NEVER, 1, &[]),
        phase(0, 1, &[(0, 3), (0, 255), (0, 255), (0, 512)]),
        phase(NEVER, 2, &[]),
    ];
    let atomic = model.atomic_from(around, 0, order, &phases);
    let least_count = 16 * (rows_in.0 * rows_in.1) as u16;
    // Order 1 searches in phase 0, and goes on from where the rule leads.
    for (from, to) in [(0, 3), (1, 2)] {
        model.rule(Rule { least_count, ..rule(atomic, from, CUE, to) });
    }
    model.couple_times(rows_in.0, 0, 0, around, 0);
    model.couple_times(rows_in.1, around, 0, atomic, 0);
    model.couple_times(rows_out.1, atomic, 0, around, 0);
    model.couple_times(rows_out.0, around, 0, 0, 1);
    model
}

/// So many rules of one atomic, joined to the root's input 0: each but the last wants value 9, and the
/// last wants 7.
pub fn last_rule_decides(rules: usize) -> Builder {
    let mut model = Builder::new();
    let resting: Vec<_> = (0..64).map(|_| phase(NEVER, 0, &[])).collect();
    let atomic = model.atomic(0, &resting);
    model.couple(0, 0, atomic, 0);
    for number in 1..=rules {
        let (value, to) = if number == rules { (7, 63) } else { (9, 1) };
        model.rule(rule(atomic, 0, value, to));
    }
    model
}
