//! Feeds in a random list of calls: as they are planned, spoilt, too early, or run to an end that is refused.

use super::arguments::Plan;
use super::damage::DAMAGES;
use super::in_turn::Fact;
use crate::arguments::{self, Known};
use crate::call::Call;
use crate::comparison::{CallList, Compared};
use crate::random::Random;
use crate::runs::open_moment;
use reference::limits::HIGHEST_TIME;
use reference::model::Model;

/// How many feeds of a hundred are held against their calls in turn.
const IN_TURN: u64 = 30;

/// Feeds at the end of a list, with other calls between them. Answers those whose calls in turn are still to
/// be made.
pub fn at_the_end(
    list: &mut CallList,
    random: &mut Random,
    model: &Model,
    known: &Known,
) -> Compared<Vec<Fact>> {
    let mut facts = Vec::new();
    for _ in 0..random.between(1, 3) {
        let file = list.file.clone();
        let mut plan = Plan::new(random, known, &file, list.run());
        if random.percent(6) {
            begin_too_early(&mut plan, open_moment(list.run()));
        }
        let call = plan.call(random, &file, list.run());
        if random.percent(18) {
            list.call(&spoilt(random, &plan, call))?;
        } else {
            let (outcome, fact) = Fact::of(list, plan, &call)?;
            // Endless instants cost most and differ least.
            if outcome.answer.number() == 13 {
                return Ok(facts);
            }
            if random.percent(IN_TURN) {
                facts.push(fact);
            }
        }
        if random.percent(40) {
            let between = arguments::next_call(random, &file, model, known, list.run());
            list.call(&between)?;
        }
    }
    Ok(facts)
}

/// Puts the first bag, or the end where there is none, before the open moment.
fn begin_too_early(plan: &mut Plan, open: u64) {
    let early = open.saturating_sub(1).min(HIGHEST_TIME);
    match plan.bags.first_mut() {
        Some(first) => first.moment = early.min(first.moment),
        None => plan.end = early,
    }
}

/// The call with another end, or with other bytes. No end that is not refused lies later than planned, so
/// that there are no more instants.
fn spoilt(random: &mut Random, plan: &Plan, call: Call) -> Call {
    let Call::Feed { end, mut feed, trace } = call else {
        return call;
    };
    let last = plan.bags.last().map_or(end, |last| last.moment);
    let refused_ends = [HIGHEST_TIME + 1, u64::MAX, last.saturating_sub(1), random.below(last + 1)];
    match random.below(3) {
        0 => return Call::Feed { end: random.pick(&refused_ends), feed, trace },
        1 => {
            let damage = &DAMAGES[random.index(DAMAGES.len())];
            feed = (damage.apply)(random, &plan.bags).unwrap_or_default();
        }
        _ => {
            let at = random.index(feed.len());
            feed[at] = match random.below(3) {
                0 => random.next() as u8,
                1 => feed[at] ^ (1 << random.below(8)),
                _ => random.pick(&[0, 1, 3, 4, 16, 17, 255]),
            };
        }
    }
    Call::Feed { end, feed, trace }
}

/// Bytes that may be a feed and mostly are none, for a call that is refused before they are looked at.
pub fn any_bytes(random: &mut Random) -> Vec<u8> {
    let length = random.index(30);
    match random.below(3) {
        0 => vec![0, 0],
        1 => vec![1, 0, 9, 0, 0, 0, 0, 0, 0, 0, 1, 4, 7, 0],
        _ => random.bytes(length),
    }
}
