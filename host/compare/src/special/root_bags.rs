//! The largest bags at the root: directly and through a nest, from many atomics, in every step and in every
//! instant, beside a given bag, and in an instant that never ends. No call tests how large they are.

use super::bags::doublings;
use super::{expect, success};
use crate::comparison::{Compared, Comparison};
use crate::random::Random;
use reference::builder::{bag, phase, Builder, NEVER};
use reference::examples::{echo, full_root_bags, repeated_way_out, way_out, CUE};
use reference::Advanced;

pub const NAMES: [&str; 13] = [
    "4 messages of each route, in a trace that just holds them",
    "4,096 messages through eight levels",
    "instant with more record bytes than 4,096",
    "4,096 messages in every step of an instant",
    "4,096 messages in each of 64 steps",
    "4,096 messages in every instant",
    "4,096 messages of 62 atomics",
    "4,096 messages, and a bag of 16 that reaches nothing",
    "4,092 messages, and again by a bag of 16",
    "2,048 messages, and again by 8,192 at the atomic",
    "4 messages, and again by 16,368 at the atomic",
    "endless instant with 4,096 messages in its first steps",
    "64 and 65 routes, by which messages come and go",
];

/// The bytes of a record with so many messages.
fn record(messages: u64) -> u64 {
    12 + 3 * messages
}

/// Advances with a trace that just holds all records, and with one that is a byte shorter: then the last instant
/// is left undone, and the answer counts what came before it.
fn expect_to_fill(
    comparison: &mut Comparison,
    random: &mut Random,
    model: &Builder,
    (t, given): (u64, &[u8]),
    whole: Advanced,
    before: Advanced,
) -> Compared<Vec<u8>> {
    let length = whole.trace_bytes as usize;
    let short = Advanced { number: 15, ..before };
    expect(comparison, random, model, (t, given.to_vec(), length - 1), short)?;
    expect(comparison, random, model, (t, given.to_vec(), length), whole)
}

/// 340 and 341 routes give records of 4,092 and 4,104 bytes.
pub fn largest(comparison: &mut Comparison, random: &mut Random) -> Compared<()> {
    let any = (random.between(1, 30) as usize, random.between(1, 34) as usize);
    for (inner, outer) in [(32, 32), (20, 17), (11, 31), (8, 8), (5, 13), any] {
        let model = repeated_way_out(inner, outer);
        let whole = success(1, 1, record(4 * (inner * outer) as u64));
        expect_to_fill(comparison, random, &model, (3, &[]), whole, success(0, 0, 0))
            .map_err(|fault| format!("{}, {inner} times {outer} routes: {fault}", NAMES[0]))?;
    }
    comparison.counts.meet(NAMES[0]);
    Ok(())
}

pub fn through_levels(comparison: &mut Comparison, random: &mut Random) -> Compared<()> {
    let times = doublings(random);
    let mut model = Builder::new();
    let innermost = model.coupled_chain(0, 7);
    let outputs = [(2, 1), (2, 2), (2, 256), (2, 256)];
    model.atomic(innermost, &[phase(5, 1, &outputs), phase(NEVER, 0, &[])]);
    (0..8).for_each(|link| model.couple_times(times[link], link + 1, 2, link, 2));
    let whole = success(1, 1, record(4_096));
    expect_to_fill(comparison, random, &model, (5, &[]), whole, success(0, 0, 0))
        .map_err(|fault| format!("{}, {fault}", NAMES[1]))?;
    comparison.counts.meet(NAMES[1]);
    Ok(())
}

/// Many zero-stay steps with output in one instant, followed by a later instant.
pub fn bursts(comparison: &mut Comparison, random: &mut Random) -> Compared<()> {
    let steps = random.between(12, 60) as u8;
    let rows = random.between(30, 60) as usize;
    let mut model = Builder::new();
    let mut phases = Vec::new();
    for number in 0..steps {
        let value = u16::from(number);
        phases.push(phase(0, number + 1, &[(0, value), (0, value), (1, 9), (1, 300)]));
    }
    phases.push(phase(8, steps, &[(1, 1)]));
    let atomic = model.atomic(0, &phases);
    model.couple_times(rows, atomic, 0, 0, 1);
    model.couple_times(rows, atomic, 1, 0, 0);
    let burst = usize::from(steps) * (12 + 12 * rows);
    let later = 12 + 3 * rows;
    let whole = success(2, u64::from(steps) + 1, (burst + later) as u64);
    let only_burst = success(1, u64::from(steps), burst as u64);
    let before_later = random.index(later);
    for (length, expected) in [
        (burst + later, whole),
        (burst + before_later, Advanced { number: 15, ..only_burst }),
        (burst - 1, Advanced::refused(15)),
        (random.index(burst), Advanced::refused(15)),
    ] {
        expect(comparison, random, &model, (8, Vec::new(), length), expected)?;
    }
    if burst > 4_096 {
        comparison.counts.meet(NAMES[2]);
    }
    Ok(())
}

/// One full bag after another, in all more record bytes than a number of 16 bits counts: in one instant, which is
/// done whole or not at all, and in instants of one step. More than 64 such steps are in no instant that is done:
/// no route is left that leads to an atomic, so each goes through its phases by itself.
pub fn one_after_another(comparison: &mut Comparison, random: &mut Random) -> Compared<()> {
    let several = random.between(7, 9);
    for (name, steps, instants) in
        [(NAMES[3], several, 1), (NAMES[4], 64, 1), (NAMES[5], 1, several)]
    {
        let done =
            |instants: u64| success(instants, instants * steps, instants * steps * record(4_096));
        let (whole, before) = (done(instants), done(instants - 1));
        let model = full_root_bags(steps as u8);
        expect_to_fill(comparison, random, &model, (3 * instants, &[]), whole, before)
            .map_err(|fault| format!("{name}, {fault}"))?;
        comparison.counts.meet(name);
    }
    Ok(())
}

/// As many different messages as may be, which come in any order and leave on all ports, twice.
pub fn of_many_atomics(comparison: &mut Comparison, random: &mut Random) -> Compared<()> {
    let mut model = Builder::new();
    let around = model.coupled(0);
    for number in 0..62 {
        let mut outputs = [(); 4].map(|()| (0, random.next() as u16));
        outputs.sort();
        let atomic = model.atomic(around, &[phase(4, 0, &outputs)]);
        // 64 rows inside to each port, and four outside from each.
        let times = if number < 2 { 2 } else { 1 };
        (0..4).for_each(|port| model.couple_times(times, atomic, 0, around, port));
    }
    for inside in 0..4 {
        (0..4).for_each(|outside| model.couple(around, inside, 0, outside));
    }
    let done = |instants: u64| success(instants, instants, instants * record(4_096));
    expect_to_fill(comparison, random, &model, (8, &[]), done(2), done(1))
        .map_err(|fault| format!("{}, {fault}", NAMES[6]))?;
    comparison.counts.meet(NAMES[6]);
    Ok(())
}

/// All 1,024 routes, divided between what a step brings to the atomic and what it brings to the root; and as few
/// as may have smaller buffers, and one more.
pub fn beside_given_bags(comparison: &mut Comparison, random: &mut Random) -> Compared<()> {
    let given = bag(&[(0, CUE); 16]);
    for (name, rows_in, rows_out, steps) in [
        (NAMES[7], (5, 0), (32, 32), 1),
        (NAMES[8], (1, 1), (31, 33), 2),
        (NAMES[9], (16, 32), (16, 32), 2),
        (NAMES[10], (31, 33), (1, 1), 2),
        (NAMES[12], (1, 1), (7, 9), 2),
        (NAMES[12], (1, 1), (8, 8), 2),
        (NAMES[12], (7, 9), (1, 1), 2),
        (NAMES[12], (8, 8), (1, 1), 2),
    ] {
        for order in [0, 1] {
            let model = echo(order, rows_in, rows_out);
            let bytes = record(4 * (rows_out.0 * rows_out.1) as u64);
            let whole = success(1, steps, steps * bytes);
            expect_to_fill(comparison, random, &model, (3, &given), whole, success(0, 0, 0))
                .map_err(|fault| format!("{name}, order {order}: {fault}"))?;
        }
        comparison.counts.meet(name);
    }
    Ok(())
}

/// At 3 a full bag, at 5 two of them and steps without end: 13 goes before 15, and what came at 3 stands.
pub fn in_an_endless_instant(comparison: &mut Comparison, random: &mut Random) -> Compared<()> {
    let full = [(0, 1), (0, 2), (0, 3), (0, 4)];
    let phases = [(3, 1, &full[..]), (2, 2, &full), (0, 3, &full), (0, 3, &[])];
    let phases = phases.map(|(advance, next, outputs)| phase(advance, next, outputs));
    let model = way_out(&phases, 32, 32);
    let stopped = Advanced { number: 13, ..success(1, 1, record(4_096)) };
    for (length, expected) in [
        (12_299, Advanced::refused(15)),
        (12_300, stopped),
        (36_899, stopped),
        (36_900, stopped),
        (50_000, stopped),
    ] {
        expect(comparison, random, &model, (9, Vec::new(), length), expected)
            .map_err(|fault| format!("{}, {fault}", NAMES[11]))?;
    }
    comparison.counts.meet(NAMES[11]);
    Ok(())
}
