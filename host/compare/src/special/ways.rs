//! Routes that add up to the limit or one more, and ways that begin nowhere.

use super::spread;
use crate::comparison::{Compared, Comparison};
use crate::random::Random;
use reference::builder::{phase, Builder, NEVER};

pub const NAMES: [&str; 5] = [
    "1,024 routes of several atomics",
    "1,025 routes of several atomics",
    "1,024 routes through several levels",
    "1,025 routes through several levels",
    "ways from an empty component",
];

fn expect_number(
    comparison: &mut Comparison,
    model: &Builder,
    number: u64,
    name: &'static str,
) -> Compared<()> {
    let file = model.file();
    let answer = comparison.check_model(&file)?;
    if answer != number {
        return Err(format!("{name}: check_model answers {answer}, not {number}"));
    }
    let (written, _) = comparison.flatten(&file, &[0; 5_000])?;
    if written.number != number {
        return Err(format!("{name}: flattening answers {written:?}"));
    }
    comparison.counts.meet(name);
    Ok(())
}

/// The most atomics that share the rows to an output: a model has room for three components beside them.
const MOST_SHARES: usize = 61;

/// A sum divided into parts, at most so many.
fn parts(random: &mut Random, sum: usize, most: usize) -> Vec<usize> {
    let mut parts = Vec::new();
    let mut left = sum;
    while left > 0 {
        let last = parts.len() + 1 == most || random.percent(30);
        let part = if last { left } else { random.between(1, left as u64) as usize };
        parts.push(part);
        left -= part;
    }
    parts
}

/// Atomics in one coupled component, `shares` rows to its output in all, each going on `outer` times
/// to the root; and `direct` rows from the root's input to an atomic.
fn shared(random: &mut Random, shares: usize, outer: usize, direct: usize) -> Builder {
    let mut model = Builder::new();
    let around = model.coupled(0);
    for rows in parts(random, shares, MOST_SHARES) {
        let atomic = model.atomic(around, &[phase(NEVER, 0, &[])]);
        model.couple_times(rows, atomic, random.below(4) as u8, around, 1);
    }
    model.couple_times(outer, around, 1, 0, 2);
    let beside = model.atomic(0, &[phase(NEVER, 0, &[])]);
    model.couple_times(direct, 0, 0, beside, 0);
    model
}

pub fn divided_routes(comparison: &mut Comparison, random: &mut Random) -> Compared<()> {
    for (shares, outer, direct) in
        [(256, 4, 0), (512, 2, 0), (341, 3, 1), (205, 5, 0), (341, 3, 2), (41, 25, 0)]
    {
        let model = shared(random, shares, outer, direct);
        match shares * outer + direct {
            1_024 => expect_number(comparison, &model, 0, NAMES[0])?,
            _ => expect_number(comparison, &model, 9, NAMES[1])?,
        }
    }
    Ok(())
}

/// Links up from an atomic, across, and down to another, whose repeats multiply to the limit or one more.
pub fn factors_of_the_limit(comparison: &mut Comparison, random: &mut Random) -> Compared<()> {
    for (factors, number, name) in [(&[2; 10][..], 0, NAMES[2]), (&[5, 5, 41][..], 9, NAMES[3])] {
        // First with one link up that is not repeated, so that all the ways lead on from there.
        for single in [1, 0] {
            let mut model = Builder::new();
            let left = model.coupled_chain(0, 7);
            let source = model.atomic(left, &[phase(NEVER, 0, &[])]);
            let right = model.coupled_chain(0, 7);
            let target = model.atomic(right, &[phase(NEVER, 0, &[])]);
            let mut links: Vec<(usize, usize)> = (1..source).rev().map(|to| (to + 1, to)).collect();
            links.push((1, source + 1));
            links.extend((source + 1..target).map(|from| (from, from + 1)));
            let times = spread(random, factors, links.len(), single);
            for ((from, to), times) in links.into_iter().zip(times) {
                model.couple_times(times, from, 0, to, 0);
            }
            expect_number(comparison, &model, number, name)?;
        }
    }
    Ok(())
}

/// Ways without number lead to the root and to an atomic, but no message can ever enter them.
pub fn ways_from_nothing(comparison: &mut Comparison, random: &mut Random) -> Compared<()> {
    let mut to_the_root = Builder::new();
    let ticker = to_the_root.atomic(0, &[phase(1, 0, &[(0, 1)])]);
    let empty = to_the_root.coupled_chain(0, 8);
    to_the_root.couple(ticker, 0, 0, 1);
    (ticker + 1..=empty).for_each(|inside| {
        let outside = if inside == ticker + 1 { 0 } else { inside - 1 };
        to_the_root.couple_times(127, inside, 0, outside, 0);
    });
    let mut to_an_atomic = Builder::new();
    let innermost = to_an_atomic.coupled_chain(0, 7);
    let atomic = to_an_atomic.atomic(innermost, &[phase(1, 0, &[(0, 1)])]);
    (1..atomic).for_each(|around| to_an_atomic.couple_times(146, around, 0, around + 1, 0));
    for (model, bytes) in [(to_the_root, 45), (to_an_atomic, 0)] {
        expect_number(comparison, &model, 0, NAMES[4])?;
        let done = super::success(3, 3, bytes);
        super::expect(comparison, random, &model, (3, vec![0; 48], 45), done)?;
    }
    Ok(())
}

#[test]
fn a_sum_has_few_parts() {
    for seed in 0..1_000 {
        let parts = parts(&mut Random::new(seed), 512, 3);
        assert!(parts.iter().sum::<usize>() == 512 && parts.len() <= 3, "{parts:?}");
    }
}
