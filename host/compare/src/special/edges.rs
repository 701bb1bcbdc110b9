//! Buffers, times, positions and bags at their edges, on small models. What a random list of calls may
//! miss is met here, so that every run meets it, whatever its seed.

use crate::call::Call;
use crate::calls_on_model::flatten_into;
use crate::comparison::{Compared, Comparison};
use crate::random::Random;
use reference::builder::{bag, phase, Builder, NEVER};
use reference::examples::cue_source;
use reference::flatten::flat_form;
use reference::limits::HIGHEST_TIME;
use reference::saved_run;

/// Makes calls over one run buffer, expecting the number of each.
fn expect_numbers(
    comparison: &mut Comparison,
    model: &Builder,
    run: &[u8],
    calls: Vec<(Call, u64)>,
) -> Compared<()> {
    let mut list = comparison.list(&model.file(), run);
    for (call, number) in calls {
        let answer = list.call(&call)?.answer;
        if answer.number() != number {
            return Err(format!("{call} answers {answer:?} instead of {number}"));
        }
    }
    Ok(())
}

/// The table of rules has room for the few atomics of these models.
fn advance(t: u64, bag: &[u8]) -> Call {
    Call::Advance { t, bag: bag.to_vec(), trace: Vec::new(), rules: vec![0x5A; 5] }
}

fn read(position: u64) -> Call {
    Call::Read { position }
}

/// Buffers just long enough, and one byte too short.
pub fn lengths(comparison: &mut Comparison, random: &mut Random) -> Compared<()> {
    let model = cue_source(0, 1);
    let mut run = random.bytes(saved_run::length(2));
    let calls = vec![(Call::Start, 0), (advance(5, &[]), 0), (read(1), 0)];
    expect_numbers(comparison, &model, &run, calls)?;
    run.pop();
    let calls = vec![(Call::Start, 15), (advance(5, &[]), 10), (read(1), 10)];
    expect_numbers(comparison, &model, &run, calls)?;
    let length = flat_form(&model.model()).encode().len();
    flatten_into(comparison, random, &model.file(), length, length)?;
    flatten_into(comparison, random, &model.file(), length, length - 1)
}

/// The first and last times that are allowed and their neighbours, and positions up to the number of
/// atomics and above: with an atomic that is never due, and without atomics.
pub fn times_and_positions(comparison: &mut Comparison, random: &mut Random) -> Compared<()> {
    let mut resting = Builder::new();
    resting.atomic(0, &[phase(NEVER, 0, &[])]);
    for (model, atomics) in [(resting, 1), (Builder::new(), 0)] {
        let last = if atomics == 1 { 0 } else { 16 };
        let calls = vec![
            (Call::Start, 0),
            (advance(0, &[]), 0),
            (advance(0, &[]), 11),
            (advance(HIGHEST_TIME + 1, &[]), 11),
            (advance(HIGHEST_TIME, &[]), 0),
            (advance(HIGHEST_TIME + 1, &[]), 11),
            (read(0), last),
            (read(atomics), 16),
            (read(1 << 32), 16),
        ];
        let run = random.bytes(saved_run::length(atomics as usize));
        expect_numbers(comparison, &model, &run, calls)?;
    }
    Ok(())
}

/// Bags of every fault and of the most messages; given where nothing is due, and where something is;
/// and one that enters a coupled component and reaches nothing there.
pub fn given_bags(comparison: &mut Comparison, random: &mut Random) -> Compared<()> {
    let mut model = cue_source(0, 1);
    let around = model.coupled(0);
    model.couple(0, 3, around, 3);
    let calls = vec![
        (Call::Start, 0),
        (advance(0, &bag(&[(0, 9); 17])), 12),
        (advance(0, &[0; 1]), 12),
        (advance(0, &[0; 47]), 12),
        (advance(0, &bag(&[(0, 9), (4, 9)])), 12),
        (advance(0, &bag(&[(0, 9); 16])), 0),
        (advance(3, &bag(&[(3, 9)])), 0),
        (advance(10, &bag(&[(0, 9)])), 0),
    ];
    let run = random.bytes(saved_run::length(2));
    expect_numbers(comparison, &model, &run, calls)
}
