//! Steps of an instant, elapsed times and times at their limits.

use super::{expect, success};
use crate::comparison::{Compared, Comparison};
use crate::random::Random;
use reference::builder::{bag, phase, rule, Builder, NEVER};
use reference::examples::{endless, zero_stay_counter, Counting};
use reference::limits::UNBOUNDED;
use reference::records::Rule;
use reference::saved_run;
use reference::Advanced;

pub const NAMES: [&str; 6] = [
    "1,024 steps, one of them by the bag",
    "1,025 steps, one of them by the bag",
    "1,024 steps",
    "1,025 steps",
    "elapsed time at a range's end beyond 2^32 − 2",
    "endless instant that also passes the trace's end",
];

pub fn zero_stay_steps(comparison: &mut Comparison, random: &mut Random) -> Compared<()> {
    for (name, counting) in [
        (NAMES[0], Counting { by_bag: true, cycle: 30, rounds: 33, tail: 32 }),
        (NAMES[1], Counting { by_bag: true, cycle: 30, rounds: 33, tail: 33 }),
        (NAMES[2], Counting { by_bag: false, cycle: 31, rounds: 33, tail: 0 }),
        (NAMES[3], Counting { by_bag: false, cycle: 31, rounds: 33, tail: 1 }),
    ] {
        let given = if counting.by_bag { bag(&[(0, 5)]) } else { Vec::new() };
        let records = (u64::from(counting.rounds) + 1) * 15;
        let expected = match counting.steps() {
            steps @ 0..=1_024 => success(1, steps, records),
            _ => Advanced::refused(13),
        };
        expect(comparison, random, &zero_stay_counter(counting), (0, given, 600), expected)?;
        comparison.counts.meet(name);
    }
    // And one somewhere below.
    let [cycle, rounds, tail] = [2, 1, 0].map(|least| random.between(least, 30) as u8);
    let counting = Counting { by_bag: false, cycle, rounds, tail };
    let records = (u64::from(rounds) + 1) * 15;
    let expected = success(1, counting.steps(), records);
    expect(comparison, random, &zero_stay_counter(counting), (0, Vec::new(), 600), expected)?;
    Ok(())
}

/// A rule with ends around 2^32 − 1, where the high end has a meaning of its own.
pub fn long_elapsed(comparison: &mut Comparison, random: &mut Random) -> Compared<()> {
    let top = u64::from(UNBOUNDED);
    for (low, high, t, holds) in [
        (0, UNBOUNDED, top + 1, true),
        (0, UNBOUNDED, 1_000_000_000_000, true),
        (UNBOUNDED, UNBOUNDED, top, true),
        (UNBOUNDED, UNBOUNDED, top - 1, false),
        (0, UNBOUNDED - 1, top - 1, true),
        (0, UNBOUNDED - 1, top, false),
        (0, 5, (1 << 32) + 3, false),
    ] {
        let mut model = Builder::new();
        let around = model.coupled(0);
        let atomic = model.atomic(around, &[phase(NEVER, 0, &[]), phase(NEVER, 1, &[])]);
        model.couple(0, 0, around, 0);
        model.couple(around, 0, atomic, 0);
        model.rule(Rule { low_elapsed: low, high_elapsed: high, ..rule(atomic, 0, 7, 1) });
        let call = (t, bag(&[(0, 7)]), 0);
        let run = expect(comparison, random, &model, call, success(1, 1, 0))?;
        if run[saved_run::HEAD_BYTES] != u8::from(holds) {
            return Err(format!("elapsed {t} in {low} to {high}: not {holds}"));
        }
        comparison.counts.meet(NAMES[4]);
    }
    Ok(())
}

/// The last moments that can be reached, with the longest advance.
pub fn highest_time(comparison: &mut Comparison, random: &mut Random) -> Compared<()> {
    let mut model = Builder::new();
    let atomic = model.atomic(0, &[phase(1_000_000_000, 0, &[(0, 1)])]);
    model.couple(atomic, 0, 0, 0);
    let call = (1_000_000_000_000, Vec::new(), 15_000);
    expect(comparison, random, &model, call, success(1_000, 1_000, 15_000))?;
    let call = (1_000_000_000_001, Vec::new(), 15_000);
    expect(comparison, random, &model, call, Advanced::refused(11))?;
    Ok(())
}

pub fn endless_with_output(comparison: &mut Comparison, random: &mut Random) -> Compared<()> {
    let mut model = Builder::new();
    let atomic = model.atomic(0, &[phase(4, 1, &[(0, 2)]), phase(0, 1, &[(0, 1)])]);
    model.couple(atomic, 0, 0, 0);
    for trace_length in [0, 14, 15, 40] {
        let call = (9, Vec::new(), trace_length);
        expect(comparison, random, &model, call, Advanced::refused(13))?;
        comparison.counts.meet(NAMES[5]);
    }
    Ok(())
}

pub fn endless_after_instants(comparison: &mut Comparison, random: &mut Random) -> Compared<()> {
    let mut model = Builder::new();
    let ticker = model.atomic(0, &[phase(2, 0, &[(0, 1)])]);
    model.couple(ticker, 0, 0, 0);
    model.atomic(0, &[phase(7, 1, &[]), phase(0, 1, &[])]);
    let done = Advanced { number: 13, ..success(3, 3, 45) };
    expect(comparison, random, &model, (100, Vec::new(), 45), done)?;
    let short = Advanced { number: 15, ..success(2, 2, 30) };
    expect(comparison, random, &model, (100, Vec::new(), 44), short)?;
    Ok(())
}

pub fn only_zero_stays(comparison: &mut Comparison, random: &mut Random) -> Compared<()> {
    expect(comparison, random, &endless(), (0, Vec::new(), 9), Advanced::refused(13))?;
    let given = bag(&[(3, 1)]);
    expect(comparison, random, &endless(), (5, given, 9), Advanced::refused(13))?;
    Ok(())
}
