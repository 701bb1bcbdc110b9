//! The cases about traces by column: each kind of damage, each cut and each byte of a small one, long ones,
//! joined ones, and what chance makes up.

use super::rearranging::{junk, Way};
use super::{damage, made_up};
use crate::call::Call;
use crate::comparison::{Compared, Comparison};
use crate::random::Random;
use reference::builder::{bag, Builder};
use reference::columns;
use reference::examples::{cue_source, relayed_hold, CUE, JAM};
use reference::limits::HIGHEST_PORT;
use reference::records::Message;
use reference::saved_run::{self, AtomicRun, SavedRun};
use reference::trace::{self, Record};

pub const NAMES: [&str; 12] = [
    "trace cut at each byte",
    "columns cut at each byte",
    "trace with each byte changed",
    "columns with each byte changed",
    "by column: 4,097 messages in a record",
    "by column: 65,535 messages in a record",
    "by column: 65,535 records",
    "by column: 65,536 records",
    "17: traces joined over a start",
    "a fall at each of many messages",
    "port 4 from each of many messages on",
    "joined: over another model",
];

/// How often each kind of damage is done in a case.
const ROUNDS_OF_DAMAGE: usize = 5;

pub fn damages(comparison: &mut Comparison, random: &mut Random) -> Compared<()> {
    for damage in damage::all() {
        for _ in 0..ROUNDS_OF_DAMAGE {
            spoilt(comparison, random, &damage)?;
        }
    }
    Ok(())
}

/// A made-up trace, or its columns, spoilt in this way.
fn spoilt(
    comparison: &mut Comparison,
    random: &mut Random,
    damage: &damage::Damage,
) -> Compared<()> {
    let bytes = loop {
        let records = made_up::records(random);
        if let Some(bytes) = damage.apply(random, &records) {
            break bytes;
        }
    };
    let found = comparison.refused_whole(damage.way, &bytes);
    found.map_err(|fault| format!("{}, {fault}", damage.name))?;
    comparison.counts.meet(damage.name);
    Ok(())
}

/// A trace cut between two records is one; cut elsewhere it is none, and cut columns are never some.
pub fn every_cut(comparison: &mut Comparison, random: &mut Random) -> Compared<()> {
    let records = made_up::few_records(random);
    let trace = trace::encode(&records);
    let columns = comparison.there_and_back(Way::There, &trace)?;
    let ends: Vec<usize> =
        (0..records.len()).map(|whole| trace::encode(&records[..whole]).len()).collect();
    for length in 0..trace.len() {
        if ends.contains(&length) {
            comparison.there_and_back(Way::There, &trace[..length])?;
        } else {
            comparison.refused_whole(Way::There, &trace[..length])?;
        }
    }
    comparison.counts.meet(NAMES[0]);
    for length in 0..columns.len() {
        comparison.refused_whole(Way::Back, &columns[..length])?;
    }
    comparison.counts.meet(NAMES[1]);
    Ok(())
}

/// Each bit flipped, and some other values at each byte.
pub fn every_byte(comparison: &mut Comparison, random: &mut Random) -> Compared<()> {
    let trace = trace::encode(&made_up::few_records(random));
    let columns = comparison.there_and_back(Way::There, &trace)?;
    for (way, bytes, name) in [(Way::There, &trace, NAMES[2]), (Way::Back, &columns, NAMES[3])] {
        for at in 0..bytes.len() {
            let flipped = (0..8).map(|bit| bytes[at] ^ (1 << bit));
            let others = [0, 1, 2, 3, 4, 255, random.next() as u8];
            for byte in flipped.chain(others) {
                let mut changed = bytes.clone();
                changed[at] = byte;
                either(comparison, way, &changed)?;
            }
        }
        comparison.counts.meet(name);
    }
    Ok(())
}

/// Bytes of which it is not known whether they are refused.
fn either(comparison: &mut Comparison, way: Way, bytes: &[u8]) -> Compared<()> {
    let needed = way.length(bytes.len());
    let (written, _) = comparison.rearrange(way, bytes, &junk(needed))?;
    match written.number {
        0 => comparison.there_and_back(way, bytes).map(|_| ()),
        _ => comparison.refused_whole(way, bytes),
    }
}

/// Records with many messages, and traces with many records: their count needs a third byte.
pub fn long_ones(comparison: &mut Comparison, random: &mut Random) -> Compared<()> {
    for (name, count) in [(NAMES[4], 4_097), (NAMES[5], 65_535)] {
        let messages = made_up::messages(random, count);
        let long = Record { moment: random.below(9), step: 0, messages };
        let short = Record { moment: 9, step: 0, messages: made_up::messages(random, 1) };
        let found = comparison.there_and_back(Way::There, &trace::encode(&[long, short]));
        found.map_err(|fault| format!("{name}, {fault}"))?;
        comparison.counts.meet(name);
    }
    for (name, count) in [(NAMES[6], 65_535), (NAMES[7], 65_536)] {
        let messages = vec![Message { port: 1, value: random.next() as u16 }];
        let record = |moment| Record { moment, step: 0, messages: messages.clone() };
        let records: Vec<Record> = (0..count).map(record).collect();
        let found = comparison.there_and_back(Way::There, &trace::encode(&records));
        found.map_err(|fault| format!("{name}, {fault}"))?;
        comparison.counts.meet(name);
    }
    Ok(())
}

/// Messages may be judged one by one or several at once, by how many there are: each of them falls, and is on
/// port 4 with those behind it.
pub fn many_messages(comparison: &mut Comparison, _: &mut Random) -> Compared<()> {
    for count in [2, 7, 15, 16, 17, 31, 32, 33, 100] {
        let whole: Vec<Message> =
            (0..count).map(|place| Message { port: HIGHEST_PORT, value: 200 + place }).collect();
        comparison.there_and_back(Way::There, &trace::encode(&[record_of(&whole)]))?;
        for place in 0..whole.len() {
            let mut above = whole.clone();
            above[place..].iter_mut().for_each(|message| message.port = HIGHEST_PORT + 1);
            refused_both_ways(comparison, NAMES[10], &above)?;
            let mut falling = whole.clone();
            falling[place].value = if place == 0 { u16::MAX } else { 0 };
            refused_both_ways(comparison, NAMES[9], &falling)?;
        }
    }
    Ok(())
}

fn record_of(messages: &[Message]) -> Record {
    Record { moment: 5, step: 0, messages: messages.to_vec() }
}

fn refused_both_ways(
    comparison: &mut Comparison,
    name: &'static str,
    messages: &[Message],
) -> Compared<()> {
    let record = [record_of(messages)];
    for (way, bytes) in
        [(Way::There, trace::encode(&record)), (Way::Back, columns::encode(&record))]
    {
        let found = comparison.refused_whole(way, &bytes);
        found.map_err(|fault| format!("{name}, {fault}"))?;
    }
    comparison.counts.meet(name);
    Ok(())
}

fn advance(t: u64, given: &[(u8, u16)], trace_length: usize) -> Call {
    Call::Advance { t, bag: bag(given), trace: junk(trace_length), rules: Vec::new() }
}

/// Calls over one run buffer, each with its number; the list of calls joins what they write. Answers that,
/// and the run buffer as they left it.
fn calls(
    comparison: &mut Comparison,
    model: &Builder,
    run: &[u8],
    calls: &[(Call, u64)],
) -> Compared<(Vec<u8>, Vec<u8>)> {
    let mut list = comparison.list(&model.file(), run);
    let mut joined = Vec::new();
    for (call, number) in calls {
        let outcome = list.call(call)?;
        if outcome.answer.number() != *number {
            return Err(format!("{call} answers {:?} instead of {number}", outcome.answer));
        }
        joined.extend(outcome.records());
    }
    Ok((joined, list.run().to_vec()))
}

/// Advances with everything between them that may come between, in a run that was started and in one that
/// was not; and a start between them, after which the moments are there again.
pub fn joined(comparison: &mut Comparison, random: &mut Random) -> Compared<()> {
    let model = cue_source(0, 1);
    let run = random.bytes(saved_run::length(2));
    let between = [
        (advance(25, &[], 100), 0),
        (advance(25, &[], 100), 11),
        (Call::Read { position: 1 }, 0),
        (advance(29, &[], 100), 0),
        (advance(50, &[], 14), 15),
        (advance(50, &[], 15), 15),
        (advance(50, &[], 100), 0),
    ];
    let started = [&[(Call::Start, 0)], &between[..]].concat();
    let (first, _) = calls(comparison, &model, &run, &started)?;
    let standing = [AtomicRun { phase: 0, last: 10 }, AtomicRun { phase: 2, last: 10 }];
    let saved = SavedRun { open: 11, atomics: standing.to_vec() };
    let (second, _) = calls(comparison, &model, &saved.encode(), &between)?;
    if first != second || first.len() != 4 * 15 {
        return Err("the joined traces of the cue source are others".into());
    }
    let jam = [
        (Call::Start, 0),
        (advance(10, &[(1, JAM)], 100), 13),
        (advance(13, &[(0, CUE)], 100), 0),
        (advance(30, &[], 100), 0),
    ];
    let run = random.bytes(saved_run::length(2));
    let (jammed, _) = calls(comparison, &relayed_hold(2, 0), &run, &jam)?;
    if jammed.len() != 2 * 15 {
        return Err("the joined traces over an endless instant are others".into());
    }
    comparison.refused_whole(Way::There, &[first, second].concat())?;
    comparison.counts.meet(NAMES[8]);
    Ok(())
}

/// A run that goes on with another model that it fits.
pub fn joined_over_models(comparison: &mut Comparison, _: &mut Random) -> Compared<()> {
    let begun = [(Call::Start, 0), (advance(25, &[], 100), 0)];
    let run = junk(saved_run::length(2));
    let (first, run) = calls(comparison, &cue_source(0, 1), &run, &begun)?;
    let (second, _) = calls(comparison, &cue_source(1, 1), &run, &[(advance(50, &[], 100), 0)])?;
    if first.is_empty() || second.is_empty() {
        return Err("one of two models has written no record".into());
    }
    comparison.there_and_back(Way::There, &[first, second].concat())?;
    comparison.counts.meet(NAMES[11]);
    Ok(())
}

/// A trace as chance makes it up, there and back, into a buffer that is too short, and spoilt.
pub fn random_trace(comparison: &mut Comparison, random: &mut Random) -> Compared<()> {
    comparison.counts.at_random = true;
    let trace = trace::encode(&made_up::records(random));
    let found = comparison.there_and_back(Way::There, &trace);
    comparison.counts.at_random = false;
    let columns = found?;
    comparison.there_and_back(Way::Back, &columns)?;
    for (way, bytes) in [(Way::There, &trace), (Way::Back, &columns)] {
        too_short(comparison, random, way, bytes)?;
        let mut changed = bytes.clone();
        for _ in 0..random.between(1, 3).min(bytes.len() as u64) {
            let at = random.index(bytes.len());
            changed[at] = match random.below(3) {
                0 => random.next() as u8,
                1 => changed[at] ^ (1 << random.below(8)),
                _ => random.pick(&[0, 1, 2, 3, 4, 255]),
            };
        }
        either(comparison, way, &changed)?;
    }
    let damages: Vec<damage::Damage> = damage::all().collect();
    for _ in 0..2 {
        let damage = &damages[random.index(damages.len())];
        spoilt(comparison, random, damage)?;
    }
    Ok(())
}

/// A lent buffer that is too short, where one can be.
fn too_short(
    comparison: &mut Comparison,
    random: &mut Random,
    way: Way,
    bytes: &[u8],
) -> Compared<()> {
    let needed = way.length(bytes.len());
    if needed == 0 {
        return Ok(());
    }
    let any = random.index(needed);
    let lent = random.pick(&[0, needed - 1, any]);
    let (written, _) = comparison.rearrange(way, bytes, &random.bytes(lent))?;
    match written.number {
        15 => Ok(()),
        number => {
            let name = way.name();
            Err(format!("{name} answers {number}, not 15, into {lent} of {needed} bytes"))
        }
    }
}
