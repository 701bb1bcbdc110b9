//! Feeds that fit where a run stands: bags close together and far apart, ends at and past the last bag, and
//! traces that are full at any place.

use crate::arguments::{self, Known, LONG_TRACE};
use crate::call::Call;
use crate::random::Random;
use crate::runs::open_moment;
use reference::feed::{self, FeedBag};
use reference::limits::{GIVEN_MESSAGES, HIGHEST_TIME};
use reference::records::Message;
use reference::trace;

/// Bags in order, and the end to which they are run.
#[derive(Clone, Debug)]
pub struct Plan {
    pub bags: Vec<FeedBag>,
    pub end: u64,
}

impl Plan {
    /// A plan for a run as it stands: it is not too early, unless the run is past the highest moment.
    pub fn new(random: &mut Random, known: &Known, file: &[u8], run: &[u8]) -> Plan {
        let open = open_moment(run).min(HIGHEST_TIME);
        let latest = open.saturating_add(known.span(random)).min(HIGHEST_TIME);
        let due = reference::read(file, run, 0).next_due.clamp(open, latest);
        let first = match random.below(6) {
            0 | 1 => open,
            2 => due,
            3 => (open + 1).min(HIGHEST_TIME),
            _ => random.between(open, latest),
        };
        let count = match random.below(12) {
            0 => 0,
            1 | 2 => 1,
            3..=9 => random.between(2, 5),
            _ => random.between(6, 14),
        };
        let moments = moments(random, count, first, latest);
        let bags: Vec<FeedBag> = moments
            .into_iter()
            .map(|moment| FeedBag { moment, messages: messages(random) })
            .collect();
        let earliest = bags.last().map_or(open, |last| last.moment);
        let end = end(random, earliest, latest.max(earliest));
        Plan { bags, end }
    }

    pub fn feed(&self) -> Vec<u8> {
        feed::encode(&self.bags)
    }

    /// The calls that the plan stands for, and how many of them are of bags: all but one to the end.
    pub fn calls(&self) -> (Vec<FeedBag>, usize) {
        let mut calls = self.bags.clone();
        if self.bags.last().is_none_or(|last| last.moment != self.end) {
            calls.push(FeedBag { moment: self.end, messages: Vec::new() });
        }
        (calls, self.bags.len())
    }

    /// The call, with a trace of some length.
    pub fn call(&self, random: &mut Random, file: &[u8], run: &[u8]) -> Call {
        let length = self.trace_length(random, file, run);
        Call::Feed { end: self.end, feed: self.feed(), trace: random.bytes(length) }
    }

    /// Now and then the length is taken from what the feed writes: all of it, or some of its records; and
    /// one byte less than either.
    fn trace_length(&self, random: &mut Random, file: &[u8], run: &[u8]) -> usize {
        if random.percent(45) {
            return match random.below(8) {
                0 => 0,
                1 => random.index(100),
                _ => LONG_TRACE,
            };
        }
        let mut scratch = vec![0; 4 * LONG_TRACE];
        let (end, feed) = (self.end, self.feed());
        let fed = reference::advance_feed(file, &mut run.to_vec(), end, &feed, &mut scratch);
        let written = &scratch[..fed.trace_bytes as usize];
        let records = trace::read_records(written).expect("the records of a feed");
        let some = trace::encode(&records[..random.index(records.len() + 1)]).len();
        let length = random.pick(&[written.len(), some, some]);
        length.saturating_sub(usize::from(random.percent(35)))
    }
}

/// So many moments that rise, or fewer where the highest is reached: neighbours, or far apart.
fn moments(random: &mut Random, count: u64, first: u64, latest: u64) -> Vec<u64> {
    let mut moments = Vec::new();
    let mut moment = first;
    while moment <= HIGHEST_TIME && (moments.len() as u64) < count {
        moments.push(moment);
        let half_way = latest.saturating_sub(moment) / 2;
        moment += match random.below(6) {
            0..=2 => 1,
            3 => random.between(1, half_way.clamp(1, 12)),
            _ => random.between(1, half_way.max(1)),
        };
    }
    moments
}

fn messages(random: &mut Random) -> Vec<Message> {
    let count = match random.below(12) {
        0..=3 => 0,
        4 => GIVEN_MESSAGES,
        5 => random.between(4, 15) as usize,
        _ => random.between(1, 3) as usize,
    };
    let bytes = arguments::messages(random, count);
    bytes.chunks_exact(Message::BYTES).map(Message::read).collect()
}

fn end(random: &mut Random, earliest: u64, latest: u64) -> u64 {
    match random.below(8) {
        0..=2 => earliest,
        3 => (earliest + 1).min(HIGHEST_TIME),
        4 => latest,
        _ => random.between(earliest, latest),
    }
}
