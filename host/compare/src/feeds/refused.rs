//! Ends that are refused by 11, and bytes that are no feed, whatever the end: each changes no byte.

use super::arguments::Plan;
use super::rows::{bags_of, list_from, Given};
use crate::call::{Answer, Call};
use crate::comparison::{CallList, Compared, Comparison};
use crate::random::Random;
use reference::builder::{phase, Builder, NEVER};
use reference::feed::{encode, FeedBag};
use reference::limits::HIGHEST_TIME;
use reference::saved_run::{AtomicRun, SavedRun};
use reference::Fed;

/// The open moment, the bags and the end.
type BadEnd = (&'static str, u64, &'static [Given], u64);

const BAD_ENDS: [BadEnd; 7] = [
    ("bad end: before the last bag", 0, &[(5, &[]), (9, &[(0, 1)])], 8),
    ("bad end: before the first bag", 0, &[(5, &[]), (9, &[(0, 1)])], 4),
    ("bad end: above the highest moment", 0, &[(5, &[(0, 1)])], HIGHEST_TIME + 1),
    ("bad end: above the highest moment, and no bag", 0, &[], u64::MAX),
    ("bad end: first bag before the open moment", 6, &[(5, &[(0, 1)]), (9, &[])], 9),
    ("bad end: before the open moment, and no bag", 6, &[], 5),
    ("bad end: run past the highest", HIGHEST_TIME + 1, &[(HIGHEST_TIME, &[])], HIGHEST_TIME),
];

type BadFeed = (&'static str, fn() -> Vec<u8>);

const BAD_FEEDS: [BadFeed; 18] = [
    ("no feed: no byte", Vec::new),
    ("no feed: one byte", || vec![0]),
    ("no feed: no bag, and a byte left over", || vec![0, 0, 0]),
    ("no feed: cut before a bag", || vec![1, 0]),
    ("no feed: cut in a moment", || vec![1, 0, 5, 0, 0]),
    ("no feed: cut before the message count", || vec![1, 0, 5, 0, 0, 0, 0, 0, 0, 0]),
    ("no feed: cut before the messages", || vec![1, 0, 5, 0, 0, 0, 0, 0, 0, 0, 1]),
    ("no feed: cut in a message", || vec![1, 0, 5, 0, 0, 0, 0, 0, 0, 0, 1, 3, 7]),
    ("no feed: cut before the second bag", || vec![2, 0, 5, 0, 0, 0, 0, 0, 0, 0, 1, 3, 7, 0]),
    ("no feed: count of 257 for one bag", || vec![1, 1, 6, 0, 0, 0, 0, 0, 0, 0, 0]),
    ("no feed: a bag left over", || {
        vec![1, 0, 5, 0, 0, 0, 0, 0, 0, 0, 0, 6, 0, 0, 0, 0, 0, 0, 0, 0]
    }),
    ("no feed: moment repeated", || {
        vec![2, 0, 5, 0, 0, 0, 0, 0, 0, 0, 0, 5, 0, 0, 0, 0, 0, 0, 0, 0]
    }),
    ("no feed: moment falls, its low byte rises", || {
        vec![2, 0, 0, 1, 0, 0, 0, 0, 0, 0, 0, 255, 0, 0, 0, 0, 0, 0, 0, 0]
    }),
    ("no feed: moment 1,000,000,000,001", || vec![1, 0, 1, 16, 165, 212, 232, 0, 0, 0, 0]),
    ("no feed: 17 messages", || [&[1, 0, 5, 0, 0, 0, 0, 0, 0, 0, 17][..], &[0; 3 * 17]].concat()),
    ("no feed: port 4", || vec![1, 0, 5, 0, 0, 0, 0, 0, 0, 0, 1, 4, 7, 0]),
    ("no feed: port 4 in the last bag", || {
        vec![2, 0, 5, 0, 0, 0, 0, 0, 0, 0, 1, 3, 7, 0, 6, 0, 0, 0, 0, 0, 0, 0, 1, 4, 7, 0]
    }),
    ("no feed: 1,001 bags", || {
        let bags = (6..1_007).map(|moment| FeedBag { moment, messages: Vec::new() });
        encode(&bags.collect::<Vec<FeedBag>>())
    }),
];

pub fn names() -> impl Iterator<Item = &'static str> {
    BAD_ENDS.iter().map(|(name, ..)| *name).chain(BAD_FEEDS.iter().map(|(name, _)| *name))
}

/// One atomic that is never due, so that a feed which should be refused and is not ends soon.
fn resting() -> Builder {
    let mut model = Builder::new();
    model.atomic(0, &[phase(NEVER, 0, &[])]);
    model
}

fn expect_refusal(
    list: &mut CallList,
    random: &mut Random,
    end: u64,
    feed: &[u8],
    number: u64,
) -> Compared<()> {
    let call = Call::Feed { end, feed: feed.to_vec(), trace: random.bytes(20) };
    match list.call(&call)?.answer {
        Answer::Fed(fed) if fed == Fed::refused(number) => Ok(()),
        answer => Err(format!("{call} answers {answer:?} instead of {number}")),
    }
}

/// Ends beside the bags and the open moment.
pub fn bad_ends(comparison: &mut Comparison, random: &mut Random) -> Compared<()> {
    for (name, open, given, end) in BAD_ENDS {
        let mut list = list_from(comparison, random, &resting(), open)?;
        let feed = Plan { bags: bags_of(given), end }.feed();
        let found = expect_refusal(&mut list, random, end, &feed, 11);
        found.map_err(|fault| format!("{name}, {fault}"))?;
        list.counts().meet(name);
    }
    Ok(())
}

/// Bytes that are no feed, with an end that would do and with ends that would not; and by 10 for a run that
/// does not fit, which is one byte too short or of another model.
pub fn bad_feeds(comparison: &mut Comparison, random: &mut Random) -> Compared<()> {
    let other = SavedRun { open: 6, atomics: vec![AtomicRun { phase: 1, last: 0 }] }.encode();
    for (name, feed) in BAD_FEEDS {
        let feed = feed();
        let mut list = list_from(comparison, random, &resting(), 6)?;
        for end in [2_000, HIGHEST_TIME, HIGHEST_TIME + 1, u64::MAX, 5, 0] {
            let found = expect_refusal(&mut list, random, end, &feed, 19);
            found.map_err(|fault| format!("{name}, {fault}"))?;
        }
        for run in [&other[..], &other[..other.len() - 1]] {
            let mut list = comparison.list(&resting().file(), run);
            let found = expect_refusal(&mut list, random, 2_000, &feed, 10);
            found.map_err(|fault| format!("{name}, {fault}"))?;
        }
        comparison.counts.meet(name);
    }
    Ok(())
}
