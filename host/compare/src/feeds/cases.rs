//! The cases about feeds: each kind of damage, each cut and each byte of a small one, the longest ones, feeds
//! gone on with, feeds among advances, and the largest bags at the root.

use super::arguments::Plan;
use super::damage::{Damage, DAMAGES};
use super::in_turn::Fact;
use super::rows::{bags_of, list_from};
use crate::arguments::Known;
use crate::call::{Answer, Call};
use crate::comparison::{CallList, Compared, Comparison};
use crate::models::nests;
use crate::random::Random;
use crate::runs;
use reference::decode::decode;
use reference::examples::{cue_source, echo, full_root_bags, relayed_hold, CUE, STRAY};
use reference::feed::FeedBag;
use reference::limits::{FEED_BAGS, GIVEN_MESSAGES, HIGHEST_TIME};
use reference::records::Message;
use reference::saved_run::{self, SavedRun};
use reference::Fed;

pub const NAMES: [&str; 8] = [
    "feed cut at each byte",
    "feed with each byte changed",
    "feed of 1,000 bags",
    "feed of 1,000 bags with 16 messages each",
    "feed gone on with after 15",
    "feeds among advances",
    "feed with 4,096 messages at the root in every step",
    "feed with 4,092 messages at the root by each bag",
];

/// How often each kind of damage is done in a case.
const ROUNDS_OF_DAMAGE: usize = 2;

/// A planned feed spoilt in each way, on a run that fits.
pub fn damages(comparison: &mut Comparison, random: &mut Random) -> Compared<()> {
    for damage in &DAMAGES {
        for _ in 0..ROUNDS_OF_DAMAGE {
            spoilt(comparison, random, damage)
                .map_err(|fault| format!("{}, {fault}", damage.name))?;
            comparison.counts.meet(damage.name);
        }
    }
    Ok(())
}

fn spoilt(comparison: &mut Comparison, random: &mut Random, damage: &Damage) -> Compared<()> {
    let (file, run, end, feed) = loop {
        let (file, run, Plan { bags, end }) = planned(random);
        if let Some(feed) = (damage.apply)(random, &bags) {
            break (file, run, end, feed);
        }
    };
    let end = random.pick(&[end, end, 0, HIGHEST_TIME + 1]);
    let mut list = comparison.list(&file, &run);
    expect(&mut list, &Call::Feed { end, feed, trace: random.bytes(30) }, 19)?;
    Ok(())
}

/// An accepted random nest, a fitting run of it, and a plan for that.
fn planned(random: &mut Random) -> (Vec<u8>, Vec<u8>, Plan) {
    loop {
        let model = nests::nest(random);
        let file = model.encode();
        if decode(&file).is_ok() {
            let run = runs::fitting(random, &model).encode();
            let plan = Plan::new(random, &Known::new(&model), &file, &run);
            return (file, run, plan);
        }
    }
}

/// Makes a call that must get a known number. Answers the records that it writes.
fn expect(list: &mut CallList, call: &Call, number: u64) -> Compared<Vec<u8>> {
    let outcome = list.call(call)?;
    if outcome.answer.number() != number {
        return Err(format!("{call} answers {:?} instead of {number}", outcome.answer));
    }
    Ok(outcome.records().to_vec())
}

/// Three bags on the cue source.
fn small() -> Plan {
    let bags = bags_of(&[(10, &[]), (17, &[(3, 258), (0, 65_535)]), (25, &[(1, 1)])]);
    Plan { bags, end: 30 }
}

pub fn every_cut(comparison: &mut Comparison, random: &mut Random) -> Compared<()> {
    let plan = small();
    let (end, feed) = (plan.end, plan.feed());
    let mut list = list_from(comparison, random, &cue_source(0, 1), 0)?;
    for length in 0..feed.len() {
        let call = Call::Feed { end, feed: feed[..length].to_vec(), trace: random.bytes(100) };
        expect(&mut list, &call, 19).map_err(|fault| format!("{}, {fault}", NAMES[0]))?;
    }
    list.counts().meet(NAMES[0]);
    Ok(())
}

/// Each bit flipped, and some other values at each byte. Some of it is still a feed; no moment of it lies
/// past the end without being refused.
pub fn every_byte(comparison: &mut Comparison, random: &mut Random) -> Compared<()> {
    let plan = small();
    let (end, feed) = (plan.end, plan.feed());
    let model = cue_source(0, 1);
    let started = SavedRun::first(&model.model()).encode();
    for at in 0..feed.len() {
        let flipped = (0..8).map(|bit| feed[at] ^ (1 << bit));
        for byte in flipped.chain([0, 1, 3, 4, 16, 17, 255]) {
            let mut changed = feed.clone();
            changed[at] = byte;
            let mut list = comparison.list(&model.file(), &started);
            let call = Call::Feed { end, feed: changed, trace: random.bytes(100) };
            list.call(&call).map_err(|fault| format!("{}, {fault}", NAMES[1]))?;
        }
    }
    comparison.counts.meet(NAMES[1]);
    Ok(())
}

/// As many bags as a feed may have, of one message and of as many as a bag may have. Few of them lead to a
/// record, so that their calls in turn have little to join.
pub fn longest(comparison: &mut Comparison, random: &mut Random) -> Compared<()> {
    for (name, count) in [(NAMES[2], 1), (NAMES[3], GIVEN_MESSAGES)] {
        let (first, apart) = (random.below(300), random.between(1, 9));
        let bag = |number: u64| {
            let value = if number.is_multiple_of(50) { CUE } else { STRAY };
            let messages = vec![Message { port: 0, value }; count];
            FeedBag { moment: first + number * apart, messages }
        };
        let bags: Vec<FeedBag> = (0..FEED_BAGS as u64).map(bag).collect();
        let end = bags[FEED_BAGS - 1].moment + random.below(2);
        let found = run_whole(comparison, random, Plan { bags, end });
        found.map_err(|fault| format!("{name}, {fault}"))?;
        comparison.counts.meet(name);
    }
    Ok(())
}

fn run_whole(comparison: &mut Comparison, random: &mut Random, plan: Plan) -> Compared<()> {
    let count = plan.bags.len() as u64;
    let mut list = list_from(comparison, random, &relayed_hold(2, 0), 0)?;
    let call = Call::Feed { end: plan.end, feed: plan.feed(), trace: random.bytes(1_000) };
    let (outcome, fact) = Fact::of(&mut list, plan, &call)?;
    match outcome.answer {
        Answer::Fed(Fed { number: 0, bags, .. }) if bags == count => fact.holds_in_turn(comparison),
        answer => Err(format!("{answer:?} for {count} bags")),
    }
}

/// After each 15 the call is made again with the bags that are left and a new trace: in the end as if the
/// trace had been long enough.
pub fn gone_on_with(comparison: &mut Comparison, random: &mut Random) -> Compared<()> {
    let bags = bags_of(&[(10, &[]), (25, &[(0, 5)]), (30, &[(2, 9)]), (31, &[]), (55, &[(1, 1)])]);
    let whole = Plan { bags, end: 90 };
    let expected = with_room(comparison, random, &whole, 1_000)?;
    for room in [15, 16, 29, 30, 31, 44, 45, 59, 60] {
        let found = with_room(comparison, random, &whole, room);
        if found.map_err(|fault| format!("{}, {fault}", NAMES[4]))? != expected {
            return Err(format!("{}, another run with {room} bytes a call", NAMES[4]));
        }
    }
    comparison.counts.meet(NAMES[4]);
    Ok(())
}

/// Runs a plan on the cue source with traces of this length. Answers the run and what was written, joined.
fn with_room(
    comparison: &mut Comparison,
    random: &mut Random,
    plan: &Plan,
    room: usize,
) -> Compared<(Vec<u8>, Vec<u8>)> {
    let mut list = list_from(comparison, random, &cue_source(0, 1), 0)?;
    let (mut left, mut joined) = (plan.clone(), Vec::new());
    loop {
        let call = Call::Feed { end: left.end, feed: left.feed(), trace: random.bytes(room) };
        let outcome = list.call(&call)?;
        joined.extend(outcome.records());
        match outcome.answer {
            Answer::Fed(Fed { number: 0, .. }) => break,
            Answer::Fed(Fed { number: 15, bags, trace_bytes: 1.., .. }) => {
                left.bags.drain(..bags as usize);
            }
            answer => return Err(format!("{call} answers {answer:?}")),
        }
    }
    Ok((list.run()[..saved_run::length(2)].to_vec(), joined))
}

/// Advances and feeds by turns, of bags without messages: together they write what one advance writes.
pub fn among_advances(comparison: &mut Comparison, random: &mut Random) -> Compared<()> {
    let feed = |moments: &[u64], end: u64| {
        let bags = moments.iter().map(|&moment| FeedBag { moment, messages: Vec::new() });
        let feed = Plan { bags: bags.collect(), end }.feed();
        Call::Feed { end, feed, trace: vec![0; 200] }
    };
    let none = Vec::new;
    let advance = |t: u64| Call::Advance { t, bag: none(), trace: vec![0; 200], rules: none() };
    let by_turns =
        [advance(25), feed(&[30, 33, 41], 45), feed(&[60], 60), advance(80), feed(&[], 90)];
    let mut ways = Vec::new();
    for calls in [&by_turns[..], &[advance(90)]] {
        let mut list = list_from(comparison, random, &cue_source(0, 1), 0)?;
        let mut joined = Vec::new();
        for call in calls {
            joined.extend(expect(&mut list, call, 0)?);
        }
        ways.push((joined, list.run()[..saved_run::length(2)].to_vec()));
    }
    if ways[0] != ways[1] {
        return Err(format!("{}, another run than one advance", NAMES[5]));
    }
    comparison.counts.meet(NAMES[5]);
    Ok(())
}

/// Bags of 16 messages, each at an instant of two steps. Either step puts 4,096 messages out whatever is given,
/// or the second one puts 4,092 out because of the bag. The trace just holds them all, or is a byte too short
/// for the last bag's.
pub fn largest_root_bags(comparison: &mut Comparison, random: &mut Random) -> Compared<()> {
    let count = random.between(3, 5);
    let messages = vec![Message { port: 0, value: CUE }; GIVEN_MESSAGES];
    let bag = |number: u64| FeedBag { moment: 3 * number, messages: messages.clone() };
    let plan = Plan { bags: (1..=count).map(bag).collect(), end: 3 * count };
    let full: fn(u64) -> u64 = |bags| 2 * 12_300 * bags;
    // It is due by itself at the first of them.
    let echoed: fn(u64) -> u64 = |bags| 12_288 * (bags + 1);
    for (name, model, bytes) in
        [(NAMES[6], full_root_bags(2), full), (NAMES[7], echo(0, (1, 1), (31, 33)), echoed)]
    {
        for (number, bags, missing) in [(0, count, 0), (15, count - 1, 1)] {
            let mut list = list_from(comparison, random, &model, 0)?;
            let trace = random.bytes((bytes(count) - missing) as usize);
            let call = Call::Feed { end: plan.end, feed: plan.feed(), trace };
            let (outcome, fact) = Fact::of(&mut list, plan.clone(), &call)
                .map_err(|fault| format!("{name}, {fault}"))?;
            let (steps, trace_bytes) = (2 * bags, bytes(bags));
            let expected = Answer::Fed(Fed { number, bags, instants: bags, steps, trace_bytes });
            if outcome.answer != expected {
                return Err(format!("{name}, {:?} is answered", outcome.answer));
            }
            fact.holds_in_turn(comparison)?;
        }
        comparison.counts.meet(name);
    }
    Ok(())
}
