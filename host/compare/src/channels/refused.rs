//! Calls on channels that are refused as a whole, by 21 before anything else or by the model's number; and places
//! of bags at the end of the bags, past it, and far beyond.

use super::models::{bursts, standing, BURSTS, DOES_NOT_FIT, QUIET};
use super::promises::Fact;
use super::rows::{at_rest, expect, planned, LATE};
use crate::call::{Answer, Call, OnChannels};
use crate::comparison::{Compared, Comparison};
use crate::random::Random;
use reference::builder::bag;
use reference::limits::CHANNELS;
use reference::{Advanced, Channels, Place, Places};

/// A number of channels and an allowance that do not go together.
type Refused = (&'static str, u64, u64);

const REFUSED: [Refused; 11] = [
    ("21: no channel", 0, u64::MAX),
    ("21: 9 channels", 9, 9_216),
    ("21: 256 + 1 channels", 257, u64::MAX),
    ("21: 2^32 + 1 channels", (1 << 32) + 1, u64::MAX),
    ("21: 2^54 channels, and no step", 1 << 54, 0),
    ("21: 2^61 channels, and 8,192 steps", 1 << 61, 8_192),
    ("21: 2^64 - 1 channels", u64::MAX, u64::MAX),
    ("21: no step", 1, 0),
    ("21: 1,023 steps", 1, 1_023),
    ("21: 1,024 steps for 2 channels", 2, 1_024),
    ("21: 2^32 channels, and 1,024 steps", 1 << 32, 1_024),
];

const JUST_BELOW: &str = "21: one step below 1,024 a channel, and just so many";
const MODEL: &str = "channels: the number of the model, with zeros";
const BEFORE_THE_MODEL: &str = "21 before the number of the model";

/// Where a bag of 3 bytes may lie among 7: its start and length, and the number of its channel.
type At = (&'static str, Place, u64);

const fn at(name: &'static str, start: u64, length: u64, number: u64) -> At {
    (name, Place { start, length }, number)
}

const PLACES: [At; 14] = [
    at("place: the last three bytes", 4, 3, 0),
    at("place: empty at the end", 7, 0, 0),
    at("place: empty past the end", 8, 0, 12),
    at("place: one byte past the end", 5, 3, 12),
    at("place: begins at the end", 7, 3, 12),
    at("place: longer than the bags", 0, 9, 12),
    at("place: all bytes but the first", 1, 6, 0),
    at("place: empty at 2^64 - 1", u64::MAX, 0, 12),
    at("place: all bytes from 2^64 - 1 on", u64::MAX, u64::MAX, 12),
    at("place: a sum of 2^64", u64::MAX, 1, 12),
    at("place: a sum of 2^64 + 3", u64::MAX - 2, 6, 12),
    at("place: a length that leads round to its start", 4, u64::MAX - 3, 12),
    at("place: the right start in 32 bits", 1 << 32, 3, 12),
    at("place: the right length in 32 bits", 0, (1 << 32) + 3, 12),
];

const ORDER: &str = "place past the end in channels that 10 and 11 refuse";
const SHARED: &str = "one place for the bags of all channels";

const LENGTHS: [&str; 3] = [
    "parts of the runs without a byte",
    "parts of the runs one byte too short",
    "parts of the runs just long enough, and bytes beyond",
];

pub fn names() -> impl Iterator<Item = &'static str> {
    let refused = REFUSED.iter().map(|(name, ..)| *name);
    let others = [JUST_BELOW, MODEL, BEFORE_THE_MODEL, ORDER, SHARED];
    refused.chain(PLACES.iter().map(|(name, ..)| *name)).chain(others).chain(LENGTHS)
}

/// Eight runs that fit, and a call on so many of them.
fn on_eight(random: &mut Random, count: u64, allowance: u64) -> (Vec<u8>, OnChannels) {
    let runs = standing(0, QUIET).encode().repeat(CHANNELS);
    let (bags, traces) = (random.bytes(4), random.bytes(100));
    let places = Places::default();
    (runs, OnChannels { count, t: random.below(50), allowance, bags, places, traces })
}

fn expect_refusal(
    comparison: &mut Comparison,
    file: &[u8],
    (runs, call): (Vec<u8>, OnChannels),
    number: u64,
) -> Compared<()> {
    let mut list = comparison.list(file, &runs);
    let call = Call::Channels(call);
    match list.call(&call)?.answer {
        Answer::Channels(answer) if answer == Channels::refused(number) => Ok(()),
        answer => Err(format!("{call} answers {answer:?} instead of {number}")),
    }
}

pub fn counts_and_allowances(comparison: &mut Comparison, random: &mut Random) -> Compared<()> {
    let file = bursts().file();
    for (name, count, allowance) in REFUSED {
        let call = on_eight(random, count, allowance);
        expect_refusal(comparison, &file, call, 21).map_err(|fault| format!("{name}, {fault}"))?;
        comparison.counts.meet(name);
    }
    for count in 1..=CHANNELS {
        let least = 1_024 * count as u64;
        let below = on_eight(random, count as u64, least - 1);
        expect_refusal(comparison, &file, below, 21)
            .map_err(|fault| format!("{JUST_BELOW}, {fault}"))?;
        let asked = (9, least, 0);
        let (mut list, call) = planned(comparison, random, &vec![at_rest(QUIET); count], asked, 0);
        expect(&mut list, call, &vec![[0, 0, 0, 0, 10]; count])
            .map_err(|fault| format!("{JUST_BELOW}, {fault}"))?;
    }
    comparison.counts.meet(JUST_BELOW);
    Ok(())
}

/// A file that is cut, and one with a byte too many.
pub fn model_numbers(comparison: &mut Comparison, random: &mut Random) -> Compared<()> {
    let file = bursts().file();
    let files = [(1, file[..file.len() - 1].to_vec()), (20, [&file[..], &[0]].concat())];
    for (number, file) in files {
        for (name, count, allowance, number) in [
            (MODEL, 3, 3_072, number),
            (BEFORE_THE_MODEL, 3, 3_071, 21),
            (BEFORE_THE_MODEL, 0, 0, 21),
        ] {
            let call = on_eight(random, count, allowance);
            expect_refusal(comparison, &file, call, number)
                .map_err(|fault| format!("{name}, {fault}"))?;
            comparison.counts.meet(name);
        }
    }
    Ok(())
}

/// A place in each position, between channels that burst; then in channels that are refused before it is looked at;
/// and one place for all.
pub fn places(comparison: &mut Comparison, random: &mut Random) -> Compared<()> {
    let bytes = [&[3][..], &bag(&[(2, 5), (1, 9)])].concat();
    for (name, place, number) in PLACES {
        let channel = random.index(3);
        let asked = (5, 3_072, 15);
        let (mut list, mut call) = planned(comparison, random, &[at_rest(QUIET); 3], asked, 1);
        call.bags = bytes.clone();
        call.places = [Place { start: 7, length: 0 }; CHANNELS];
        call.places[channel] = place;
        let mut expected = [[0, 0, 0, 0, 6]; 3];
        expected[channel] = match number {
            0 => [0, u64::from(place.length > 0), u64::from(place.length > 0), 0, 6],
            number => [number, 0, 0, 0, 0],
        };
        expect(&mut list, call, &expected)
            .and_then(|fact| fact.holds(comparison, random))
            .map_err(|fault| format!("{name}, {fault}"))?;
        comparison.counts.meet(name);
    }
    let standing = [at_rest(DOES_NOT_FIT), LATE, at_rest(BURSTS)];
    let (mut list, mut call) = planned(comparison, random, &standing, (10, 3_072, 15), 0);
    call.places[..2].fill(Place { start: call.bags.len() as u64 + 1, length: 0 });
    expect(&mut list, call, &[[10, 0, 0, 0, 0], [11, 0, 0, 0, 200], [0, 1, 1_024, 15, 11]])
        .map_err(|fault| format!("{ORDER}, {fault}"))?;
    comparison.counts.meet(ORDER);
    let (mut list, mut call) = planned(comparison, random, &[at_rest(QUIET); 3], (4, 3_072, 15), 2);
    call.bags = bag(&[(0, 1), (3, 3)]);
    call.places[..3].fill(Place { start: 0, length: 6 });
    expect(&mut list, call, &[[0, 1, 1, 0, 5]; 3])
        .and_then(|fact| fact.holds(comparison, random))
        .map_err(|fault| format!("{SHARED}, {fault}"))?;
    comparison.counts.meet(SHARED);
    Ok(())
}

/// Runs in parts that are too short, though all of them together are long enough, and in parts that just hold them.
pub fn lengths(comparison: &mut Comparison, random: &mut Random) -> Compared<()> {
    let run = standing(0, QUIET).encode();
    for (name, part_length, fits) in
        [(LENGTHS[0], 0, false), (LENGTHS[1], run.len() - 1, false), (LENGTHS[2], run.len(), true)]
    {
        for count in 2..=CHANNELS {
            let mut runs = run.repeat(count);
            runs.truncate(part_length * count);
            runs.extend(random.bytes(count - 1));
            let (_, mut call) = on_eight(random, count as u64, 1_024 * count as u64);
            call.t = 6;
            let mut list = comparison.list(&bursts().file(), &runs);
            let fact = Fact::of(&mut list, call).map_err(|fault| format!("{name}, {fault}"))?;
            let entry = Advanced::refused(if fits { 0 } else { 10 });
            if fact.answer.channels[..count] != vec![entry; count][..] {
                return Err(format!("{name}, {:?}", fact.answer));
            }
            fact.holds(comparison, random).map_err(|fault| format!("{name}, {fault}"))?;
        }
        comparison.counts.meet(name);
    }
    Ok(())
}
