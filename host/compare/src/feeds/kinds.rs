//! What the feeds had in them, where they were stopped, and why they were refused.

use crate::call::{Answer, Call};
use crate::counts::Counts;
use crate::runs::open_moment;
use reference::feed::{self, FeedBag};
use reference::limits::{FEED_BAGS, GIVEN_MESSAGES, HIGHEST_OPEN_MOMENT, HIGHEST_TIME};
use reference::model::Model;
use reference::saved_run;
use reference::{Advanced, Fed};

/// The boundaries that `notice` looks for, by the number answered. 13 is among them, and not among the kinds,
/// since few random models have an endless instant.
const BY_10: [&str; 2] =
    ["feed: 10, run one byte too short", "feed: 10, and the feed breaks its layout"];
const BY_19: [&str; 2] =
    ["feed: 19, and the end above 10^12", "feed: 19, and the end before the open moment"];
const BY_11: [&str; 5] = [
    "feed: 11, end one before the last bag",
    "feed: 11, end 10^12 + 1",
    "feed: 11, first bag one before the open moment",
    "feed: 11, no bag, and the end one before the open moment",
    "feed: 11, open moment 10^12 + 1",
];
const DONE: [&str; 5] = [
    "feed: run exactly long enough",
    "feed: model without atomics",
    "feed: end 10^12",
    "feed: 1,000 bags",
    "feed: 57,002 bytes",
];
const BY_13: [&str; 5] = [
    "feed: 13 at the first bag",
    "feed: 13 at a later bag",
    "feed: 13 on the way to the end",
    "feed: 13 after instants of the same call",
    "feed: 13 after records",
];

pub fn names() -> impl Iterator<Item = &'static str> {
    BY_10.into_iter().chain(BY_19).chain(BY_11).chain(DONE).chain(BY_13)
}

/// A feed whose calls were made, and what each of them answered.
struct Ran<'r> {
    bags: &'r [FeedBag],
    end: u64,
    open: u64,
    trace_length: u64,
    fed: Fed,
    calls: &'r [Advanced],
}

/// Every kind that is looked for, none of them met.
pub fn all() -> impl Iterator<Item = (&'static str, u64)> {
    let (bags, calls, fed) = (&[], &[Advanced::refused(0)], Fed::refused(0));
    let none = Ran { bags, end: 0, open: 0, trace_length: 0, fed, calls };
    none.kinds().into_iter().map(|(name, _)| (name, 0))
}

impl Ran<'_> {
    fn kinds(&self) -> Vec<(&'static str, bool)> {
        [self.of_bags().to_vec(), self.of_the_end().to_vec(), self.of_the_trace()].concat()
    }

    fn of_bags(&self) -> [(&'static str, bool); 9] {
        let bags = self.bags;
        let messages = |count: usize| bags.iter().any(|bag| bag.messages.len() == count);
        let apart = |least: u64, most: u64| {
            bags.windows(2).any(|two| (least..=most).contains(&(two[1].moment - two[0].moment)))
        };
        // More instants in a later bag's call than the bag makes by itself.
        let more = |(call, bag): (&Advanced, &FeedBag)| {
            call.instants > u64::from(!bag.messages.is_empty())
        };
        let due_by_later = self.calls.iter().zip(bags).skip(1).any(more);
        let first = bags.first().map(|bag| bag.moment);
        [
            ("feed: no bag", bags.is_empty()),
            ("feed: one bag", bags.len() == 1),
            ("feed: several bags", bags.len() > 1),
            ("feed: bag without messages", messages(0)),
            ("feed: bag of 16 messages", messages(GIVEN_MESSAGES)),
            ("feed: bags at neighbouring moments", apart(1, 1)),
            ("feed: bags 2^32 or more apart", apart(1 << 32, u64::MAX)),
            ("feed: first bag at the open moment", first == Some(self.open)),
            ("feed: something due by a later bag", due_by_later),
        ]
    }

    /// The call to the end, where it was made.
    fn to_the_end(&self) -> Option<&Advanced> {
        self.calls.get(self.bags.len())
    }

    fn of_the_end(&self) -> [(&'static str, bool); 6] {
        let last = self.bags.last().map(|bag| bag.moment);
        let done = self.to_the_end().filter(|call| call.number == 0);
        let past = |least: u64| last.is_some_and(|last| self.end >= last + least);
        [
            ("feed: end at the last bag", last == Some(self.end)),
            ("feed: end one past the last bag", past(1) && !past(2)),
            ("feed: end two or more past the last bag", past(2)),
            (
                "feed: no bag, and the end at the open moment",
                last.is_none() && self.end == self.open,
            ),
            (
                "feed: nothing to do on the way to the end",
                done.is_some_and(|call| call.instants == 0),
            ),
            ("feed: instants on the way to the end", done.is_some_and(|call| call.instants > 0)),
        ]
    }

    fn of_the_trace(&self) -> Vec<(&'static str, bool)> {
        let Fed { number, instants, trace_bytes, .. } = self.fed;
        let full = self.trace_length > 0 && trace_bytes == self.trace_length;
        let writing = self.calls.iter().filter(|call| call.trace_bytes > 0).count();
        let stopped = number == 15;
        let [at_first, at_later, at_end] = self.stopped_at();
        let after_instants = self.calls.last().is_some_and(|call| call.instants > 0);
        vec![
            ("feed: records of several calls", writing > 1),
            ("feed: trace exactly full", number == 0 && full),
            ("feed: empty trace, and an instant done", self.trace_length == 0 && instants > 0),
            ("feed: 15 at the first bag", stopped && at_first),
            ("feed: 15 at a later bag", stopped && at_later),
            ("feed: 15 on the way to the end", stopped && at_end),
            ("feed: 15 after instants of the same call", stopped && after_instants),
            (
                "feed: 15 in the first instant of a later call",
                stopped && !after_instants && !at_first,
            ),
            ("feed: 15 with no byte left", stopped && full),
        ]
    }

    /// Whether it was stopped at the first bag, at a later one, or on the way to the end.
    fn stopped_at(&self) -> [bool; 3] {
        let done = self.fed.bags as usize;
        let all = done == self.bags.len();
        [done == 0 && !all, done > 0 && !all, all]
    }
}

/// Counts what a feed met on an accepted model.
pub fn notice(
    counts: &mut Counts,
    model: Option<&Model>,
    call: &Call,
    answer: &Answer,
    run_before: &[u8],
    calls: &[Advanced],
) {
    let (Some(model), Call::Feed { end, feed, trace }, Answer::Fed(fed)) = (model, call, answer)
    else {
        return;
    };
    let (end, fed, open) = (*end, *fed, open_moment(run_before));
    let needed = saved_run::length(model.atomics().len());
    let bags = feed::read(feed);
    let mut meet = |names: &[&'static str], met: &[bool]| {
        assert_eq!(names.len(), met.len());
        names.iter().zip(met).filter(|(_, met)| **met).for_each(|(name, _)| counts.meet(name));
    };
    match (fed.number, &bags) {
        (10, bags) => meet(&BY_10, &[run_before.len() + 1 == needed, bags.is_err()]),
        (19, _) => meet(&BY_19, &[end > HIGHEST_TIME, end < open]),
        (11, Ok(bags)) => meet(&BY_11, &reasons_for_11(bags, end, open)),
        (number, Ok(bags)) => {
            let boundaries = [
                run_before.len() == needed,
                needed == saved_run::HEAD_BYTES,
                end == HIGHEST_TIME,
                bags.len() == FEED_BAGS,
                feed.len() == 57_002,
            ];
            meet(&DONE, &boundaries.map(|met| met && number == 0));
            let ran = Ran { bags, end, open, trace_length: trace.len() as u64, fed, calls };
            let [at_first, at_later, at_end] = ran.stopped_at();
            let after_instants = calls.last().is_some_and(|call| call.instants > 0);
            let places = [at_first, at_later, at_end, after_instants, fed.trace_bytes > 0];
            meet(&BY_13, &places.map(|met| met && number == 13));
            counts.kinds(ran.kinds().into_iter().map(|(name, met)| (name, u64::from(met))));
        }
        (number, Err(_)) => panic!("{number} for what is no feed"),
    }
}

/// Which of the boundaries of 11 is the only reason for it.
fn reasons_for_11(bags: &[FeedBag], end: u64, open: u64) -> [bool; 5] {
    let last = bags.last().map(|bag| bag.moment);
    let first = bags.first().map_or(end, |bag| bag.moment);
    let before_the_last = last.is_some_and(|last| end < last);
    let (late, early) = (end > HIGHEST_TIME, first < open);
    [
        !early && !late && last == Some(end.saturating_add(1)),
        !early && !before_the_last && end == HIGHEST_TIME + 1,
        !late && !before_the_last && last.is_some() && first.checked_add(1) == Some(open),
        !late && last.is_none() && end.checked_add(1) == Some(open),
        !late && !before_the_last && open == HIGHEST_OPEN_MOMENT,
    ]
}
