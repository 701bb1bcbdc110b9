//! Channels in random lists of calls, on any model and on models that are soon out of steps; and a call on a file
//! that may be refused.

use super::arguments::{busy, call, count, first_runs};
use super::promises::Fact;
use crate::arguments::{self, Known};
use crate::call::{Call, OnChannels};
use crate::comparison::{CallList, Compared, Comparison};
use crate::feeds::arguments::Plan;
use crate::random::Random;
use reference::decode::decode;
use reference::model::Model;
use reference::Place;

/// How many random models of a hundred have channels, and with how many others come channels of a busy model,
/// whose calls cost thousands of steps.
const MODELS_WITH_CHANNELS: u64 = 26;
const BUSY_MODELS: u64 = 6;

/// Channels on a random model. What chance draws here is drawn from a generator of its own, so that the calls that
/// come without channels stay what they were.
pub fn at_random(comparison: &mut Comparison, random: &Random, model: &Model) -> Compared<()> {
    let mut random = Random::new(random.clone().next());
    let calls = comparison.calls;
    let outcome = match random.below(100) {
        0..BUSY_MODELS => on_busy_model(comparison, &mut random),
        BUSY_MODELS..=MODELS_WITH_CHANNELS => on_model(comparison, &mut random, model),
        _ => Ok(()),
    };
    comparison.calls_about_channels += comparison.calls - calls;
    comparison.calls = calls;
    outcome
}

/// A list with channels in it, and calls on the run at the front between them.
fn on_model(comparison: &mut Comparison, random: &mut Random, model: &Model) -> Compared<()> {
    let file = model.encode();
    if decode(&file).is_err() {
        return Ok(());
    }
    let known = Known::new(model);
    let (count, span) = (count(random), known.span(random));
    let mut list = comparison.list(&file, &first_runs(random, model, span, count));
    let mut facts = Vec::new();
    for _ in 0..random.between(1, 3) {
        let on_channels = call(random, list.run(), count, span);
        let fact = Fact::of(&mut list, on_channels)?;
        // Endless instants cost most and differ least.
        let is_endless = fact.answer.channels.iter().any(|entry| entry.number == 13);
        facts.push(fact);
        if is_endless {
            break;
        }
        between(&mut list, random, model, &known)?;
    }
    facts.iter().try_for_each(|fact| fact.holds(comparison, random))
}

/// Calls of other kinds on the run at the front.
fn between(list: &mut CallList, random: &mut Random, model: &Model, known: &Known) -> Compared<()> {
    let file = list.file.clone();
    if random.percent(50) {
        let other = arguments::next_call(random, &file, model, known, list.run());
        list.call(&other)?;
    }
    if random.percent(20) {
        let plan = Plan::new(random, known, &file, list.run());
        let feed = plan.call(random, &file, list.run());
        list.call(&feed)?;
    }
    Ok(())
}

fn on_busy_model(comparison: &mut Comparison, random: &mut Random) -> Compared<()> {
    let (file, runs, call) = busy(random);
    let mut list = comparison.list(&file, &runs);
    let fact = Fact::of(&mut list, call)?;
    fact.holds(comparison, random)
}

/// A call on a file that is refused, or whatever becomes of it.
pub fn on_any_file(list: &mut CallList, random: &Random) -> Compared<()> {
    let mut random = Random::new(random.clone().next());
    let count = random.pick(&[1, 2, 3, 8, 8, 0, 9, u64::MAX]);
    let allowance = random.pick(&[8_192, 8_192, u64::MAX, 1_024, 0]);
    let mut places = [Place::default(); 8];
    places
        .iter_mut()
        .for_each(|place| *place = Place { start: random.below(9), length: random.below(9) });
    let (t, bags, traces) = (random.next(), random.bytes(9), random.bytes(60));
    list.call(&Call::Channels(OnChannels { count, t, allowance, bags, places, traces }))?;
    Ok(())
}
