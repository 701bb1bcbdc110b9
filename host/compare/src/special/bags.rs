//! The largest bags of an atomic, directly and through a nest.

use super::{expect, spread, success};
use crate::comparison::{Compared, Comparison};
use crate::random::Random;
use reference::builder::{bag, phase, rule, Builder, NEVER};
use reference::examples::atomic_behind_rows;
use reference::records::Rule;
use reference::saved_run;

pub const NAMES: [&str; 4] = [
    "least count that the bag just has",
    "least count one more than the bag has",
    "least count 32,768 more than the bag has",
    "16,384 messages through eight levels",
];

/// Gives a bag to a model of one atomic, which puts nothing out, and expects it in a phase.
fn expect_phase(
    comparison: &mut Comparison,
    random: &mut Random,
    model: &Builder,
    given: &[u8],
    phase: u8,
) -> Compared<()> {
    let run = expect(comparison, random, model, (2, given.to_vec(), 0), success(1, 1, 0))?;
    let found = run[saved_run::HEAD_BYTES];
    if found != phase {
        return Err(format!("the phase is {found}"));
    }
    Ok(())
}

/// A rule that wants exactly as many messages as come, one that wants one more, and one whose least count
/// has the highest bit of 16 beside that.
pub fn largest_atomic_bags(comparison: &mut Comparison, random: &mut Random) -> Compared<()> {
    let given = bag(&[(0, random.next() as u16); 16]);
    let any = random.between(1, 1_023) as usize;
    for rows in [1_024, 64, 65, any] {
        let messages = 16 * rows as u16;
        for (name, more, phase) in [(NAMES[0], 0, 1), (NAMES[1], 1, 0), (NAMES[2], 32_768, 0)] {
            let model = atomic_behind_rows(rows, messages + more);
            expect_phase(comparison, random, &model, &given, phase)
                .map_err(|fault| format!("{name}, {messages} messages: {fault}"))?;
            comparison.counts.meet(name);
        }
    }
    Ok(())
}

/// Ten doublings over eight links: 1,024 ways.
pub fn doublings(random: &mut Random) -> Vec<usize> {
    spread(random, &[2; 10], 8, 0)
}

pub fn atomic_bag_through_levels(comparison: &mut Comparison, random: &mut Random) -> Compared<()> {
    let times = doublings(random);
    for (least, phase_after) in [(16_384, 1), (16_385, 0), (49_152, 0)] {
        let mut model = Builder::new();
        let innermost = model.coupled_chain(0, 7);
        let phases = [phase(NEVER, 0, &[]), phase(NEVER, 1, &[])];
        let atomic = model.atomic(innermost, &phases);
        (0..8).for_each(|link| model.couple_times(times[link], link, 3, link + 1, 3));
        model.rule(Rule { port: 3, least_count: least, ..rule(atomic, 0, 300, 1) });
        expect_phase(comparison, random, &model, &bag(&[(3, 300); 16]), phase_after)
            .map_err(|fault| format!("{}, least count {least}: {fault}", NAMES[3]))?;
    }
    comparison.counts.meet(NAMES[3]);
    Ok(())
}
