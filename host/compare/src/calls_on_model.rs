//! What is done with one model file: its check, its flat form, and a list of calls over one run buffer.

use crate::arguments::{self, Known};
use crate::call::{Answer, Call};
use crate::channels;
use crate::comparison::{Compared, Comparison};
use crate::feeds;
use crate::naive_routes;
use crate::random::Random;
use crate::relations::Succeeded;
use crate::runs;
use reference::decode::decode;
use reference::flatten::flat_form;
use reference::limits::COMPONENTS;
use reference::lit_rules;
use reference::model::Model;

pub const NAMES: [&str; 2] =
    ["flatten: buffer exactly long enough", "flatten: buffer one byte too short"];

/// Calls on a file that may be refused.
pub fn calls_on_file(
    comparison: &mut Comparison,
    random: &mut Random,
    file: &[u8],
) -> Compared<()> {
    if let Ok(model) = decode(file) {
        return accepted(comparison, random, file, &model);
    }
    comparison.check_model(file)?;
    let lengths = [40, 700, 40, 9].map(|limit| random.index(limit));
    comparison.flatten(file, &random.bytes(lengths[0]))?;
    let mut list = comparison.list(file, &random.bytes(lengths[1]));
    list.call(&Call::Start)?;
    let (t, bag, trace) = (random.next(), arguments::bag(random), random.bytes(lengths[2]));
    // Long enough for any model, so that a byte written would show.
    let rules = random.bytes(lit_rules::length(COMPONENTS) + lengths[3]);
    list.call(&Call::Advance { t, bag, trace, rules })?;
    list.call(&Call::Read { position: arguments::position(random, 3) })?;
    let (end, feed) = (random.next(), feeds::any_bytes(random));
    list.call(&Call::Feed { end, feed, trace: random.bytes(lengths[2]) })?;
    channels::on_any_file(&mut list, random)
}

/// A model that keeps every line of the file's form, so that only its routes may be too many.
pub fn well_formed(
    comparison: &mut Comparison,
    random: &mut Random,
    model: &Model,
) -> Compared<()> {
    let file = model.encode();
    let number = comparison.check_model(&file)?;
    if let Some(rows) = naive_routes::flat_rows(model) {
        let expected = if rows.len() > 1_024 { 9 } else { 0 };
        if number != expected {
            return Err(format!("{} routes, but check_model answers {number}", rows.len()));
        }
        if number == 0 && flat_form(model).couplings != rows {
            return Err("the flat form's couplings are not the routes".into());
        }
    }
    if number != 0 && number != 9 {
        return Err(format!("a well-formed model is refused by {number}"));
    }
    calls_on_file(comparison, random, &file)
}

/// How many lists of a hundred have feeds at their end: a feed costs as much as several calls.
const LISTS_WITH_FEEDS: u64 = 30;

/// An accepted model: its flat form, and a list of calls on it.
fn accepted(
    comparison: &mut Comparison,
    random: &mut Random,
    file: &[u8],
    model: &Model,
) -> Compared<()> {
    flattening(comparison, random, file)?;
    let known = Known::new(model);
    let mut list = comparison.list(file, &runs::first_bytes(random, model));
    let mut endless_calls = 0;
    let mut call = if random.percent(60) {
        Call::Start
    } else {
        arguments::next_call(random, file, model, &known, list.run())
    };
    for _ in 0..random.between(3, 24) {
        let run_before = list.run().to_vec();
        let outcome = list.call(&call)?;
        if let (Call::Advance { t, bag, .. }, Answer::Advanced(answer)) = (&call, outcome.answer) {
            // Endless instants cost most and differ least.
            endless_calls += u64::from(answer.number == 13);
            if endless_calls > 2 {
                break;
            }
            let records = &outcome.trace[..answer.trace_bytes as usize];
            let succeeded = Succeeded {
                file,
                run_before: &run_before,
                run_after: list.run(),
                t: *t,
                bag,
                answer,
                records,
                rules_before: call.rules(),
                rules_after: &outcome.rules,
            };
            if answer.number == 0 && random.percent(6) {
                succeeded.holds_for_any_order(random)?;
                succeeded.holds_in_two_parts(random)?;
            }
        }
        // A run that does not fit stays so until the next start.
        call = match outcome.answer.number() {
            10 if random.percent(40) => Call::Start,
            _ => arguments::next_call(random, file, model, &known, list.run()),
        };
    }
    if endless_calls > 1 || !random.percent(LISTS_WITH_FEEDS) {
        return Ok(());
    }
    let facts = feeds::at_the_end(&mut list, random, model, &known)?;
    facts.iter().try_for_each(|fact| fact.holds_in_turn(comparison))
}

/// Flattening into a buffer that is long enough or not.
fn flattening(comparison: &mut Comparison, random: &mut Random, file: &[u8]) -> Compared<()> {
    let mut long = vec![0; 40_000];
    let length = reference::flatten(file, &mut long).bytes as usize;
    let beyond = random.index(30);
    let lent = match random.below(5) {
        0 => length - 1,
        1 => random.index(length),
        2 => length,
        _ => length + beyond,
    };
    flatten_into(comparison, random, file, length, lent)
}

/// Flattening into a buffer of `lent` bytes where `length` are needed; the flat form is accepted and is
/// its own flat form.
pub fn flatten_into(
    comparison: &mut Comparison,
    random: &mut Random,
    file: &[u8],
    length: usize,
    lent: usize,
) -> Compared<()> {
    let (written, out) = comparison.flatten(file, &random.bytes(lent))?;
    let expected = if lent < length { (15, 0) } else { (0, length as u64) };
    if (written.number, written.bytes) != expected {
        return Err(format!("flattening into {lent} bytes answers {written:?}"));
    }
    if lent + 1 == length {
        comparison.counts.meet(NAMES[1]);
    }
    if lent == length {
        comparison.counts.meet(NAMES[0]);
    }
    if written.number == 0 && random.percent(30) {
        let flat = &out[..length];
        if comparison.check_model(flat)? != 0 {
            return Err("the flat form is not accepted".into());
        }
        let (again, out) = comparison.flatten(flat, &vec![0; length])?;
        if again.bytes as usize != length || out != flat {
            return Err("flattening the flat form changes it".into());
        }
    }
    Ok(())
}
