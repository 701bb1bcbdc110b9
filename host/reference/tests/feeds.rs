//! Feeds: their bytes, each way to 19 and to 11 with what lies on its other side, and what the calls of a
//! feed give together. Every feed is run on the nest, on its flat form and on the flat machine.

mod common;

use common::{records, standing, started, JUNK};
use reference::builder::{bag, phase, Builder, NEVER};
use reference::examples::{cue_source, endless, relayed_hold, JAM};
use reference::feed;
use reference::saved_run;
use reference::Fed;

const HIGHEST: u64 = 1_000_000_000_000;

type Given = (u64, &'static [(u8, u16)]);

/// The bytes of a feed, from its bags by moment.
fn feed_of(bags: &[Given]) -> Vec<u8> {
    let mut bytes = (bags.len() as u16).to_le_bytes().to_vec();
    for (moment, messages) in bags {
        bytes.extend(moment.to_le_bytes());
        bytes.push(messages.len() as u8);
        bytes.extend(bag(messages));
    }
    bytes
}

/// An empty bag at each moment.
fn empty_bags(moments: impl Iterator<Item = u64>) -> Vec<u8> {
    feed_of(&moments.map(|moment| (moment, &[][..])).collect::<Vec<Given>>())
}

fn fed(number: u64, bags: u64, instants: u64, steps: u64, trace_bytes: u64) -> Fed {
    Fed { number, bags, instants, steps, trace_bytes }
}

/// One atomic that rests, so that every moment can be reached.
fn resting() -> Builder {
    let mut model = Builder::new();
    model.atomic(0, &[phase(NEVER, 0, &[])]);
    model
}

/// Runs a feed from a start, and answers with it the moments of the records and the open moment. A refusal
/// before any call must have left every byte.
fn run(model: &Builder, end: u64, feed: &[u8], trace_length: usize) -> (Fed, Vec<u64>, u64) {
    let file = model.file();
    let mut run = started(&file);
    let before = run.clone();
    let mut trace = vec![JUNK; trace_length];
    let fed = common::advance_feed(&file, &mut run, end, feed, &mut trace);
    if matches!(fed.number, 1..=12 | 16..) {
        assert_eq!(fed, Fed::refused(fed.number));
        assert!(run == before, "a refusal writes no byte");
    }
    let (records_of_run, rest) = trace.split_at(fed.trace_bytes as usize);
    assert!(rest.iter().all(|&byte| byte == JUNK), "bytes past the length stay");
    let moments = records(records_of_run).into_iter().map(|record| record.0).collect();
    (fed, moments, standing(&file, &run).0)
}

/// The number of a feed on a model that rests, run to the highest moment.
fn number(feed: &[u8]) -> u64 {
    run(&resting(), HIGHEST, feed, 0).0.number
}

#[test]
fn bytes_of_a_feed() {
    let bytes = [
        2, 0, //
        10, 0, 0, 0, 0, 0, 0, 0, 0, //
        9, 1, 0, 0, 0, 0, 0, 0, 2, 3, 2, 1, 0, 255, 255,
    ];
    assert_eq!(feed_of(&[(10, &[]), (265, &[(3, 258), (0, 65_535)])]), bytes);
    let bags = feed::read(&bytes).expect("a feed");
    assert_eq!(bags.iter().map(|bag| bag.moment).collect::<Vec<u64>>(), [10, 265]);
    assert_eq!(bags[1].given(), [3, 2, 1, 0, 255, 255]);
    assert_eq!(feed::encode(&bags), bytes);
    assert_eq!(number(&bytes), 0);
}

#[test]
fn cut_at_every_byte() {
    let bytes = feed_of(&[(10, &[]), (265, &[(3, 258), (0, 65_535)]), (300, &[(1, 1)])]);
    assert_eq!(number(&bytes), 0);
    for length in 0..bytes.len() {
        assert_eq!(number(&bytes[..length]), 19, "{length} bytes");
    }
    assert_eq!(number(&[bytes, vec![0]].concat()), 19, "one byte left over");
    assert_eq!(number(&[0, 0]), 0, "no bag");
    assert_eq!(number(&[0, 0, 0]), 19, "no bag, and one byte left over");
}

#[test]
fn bags_of_a_feed() {
    assert_eq!(number(&empty_bags(0..1_000)), 0);
    assert_eq!(number(&empty_bags(0..1_001)), 19);
    // The count has two bytes.
    assert_eq!(number(&empty_bags(0..1_256)), 19);
    assert_eq!(number(&empty_bags(0..65_535)), 19);
}

#[test]
fn messages_of_a_bag() {
    assert_eq!(number(&feed_of(&[(5, &[(3, 9); 16])])), 0);
    assert_eq!(number(&feed_of(&[(5, &[(3, 9); 17])])), 19);
    assert_eq!(number(&feed_of(&[(5, &[(3, 9); 255])])), 19);
    assert_eq!(number(&feed_of(&[(5, &[(0, 9), (3, 9)])])), 0);
    assert_eq!(number(&feed_of(&[(5, &[(0, 9), (4, 9)])])), 19);
    assert_eq!(number(&feed_of(&[(5, &[(255, 9), (3, 9)])])), 19);
}

#[test]
fn moments_of_a_feed() {
    assert_eq!(number(&feed_of(&[(5, &[]), (6, &[])])), 0);
    assert_eq!(number(&feed_of(&[(5, &[]), (5, &[])])), 19);
    assert_eq!(number(&feed_of(&[(5, &[]), (4, &[])])), 19);
    // They rise as numbers, and not by their first byte.
    assert_eq!(number(&feed_of(&[(255, &[]), (256, &[])])), 0);
    assert_eq!(number(&feed_of(&[(256, &[]), (255, &[])])), 19);
    assert_eq!(number(&feed_of(&[(HIGHEST - 1, &[]), (HIGHEST, &[])])), 0);
    assert_eq!(number(&feed_of(&[(HIGHEST, &[]), (HIGHEST + 1, &[])])), 19);
    assert_eq!(number(&feed_of(&[(u64::MAX, &[])])), 19);
}

#[test]
fn ends_that_are_refused() {
    let two = feed_of(&[(5, &[]), (9, &[(0, 1)])]);
    let numbers = |feed: &[u8], ends: &[u64]| -> Vec<u64> {
        ends.iter().map(|&end| run(&resting(), end, feed, 0).0.number).collect()
    };
    assert_eq!(numbers(&two, &[8, 9, HIGHEST, HIGHEST + 1, u64::MAX]), [11, 0, 0, 11, 11]);
    assert_eq!(numbers(&[0, 0], &[0, HIGHEST, HIGHEST + 1]), [0, 0, 11]);
}

#[test]
fn feeds_that_come_too_early() {
    let file = resting().file();
    let mut open = started(&file);
    common::advance(&file, &mut open, 5, &[], &mut []);
    let number = |bags: &[Given], end: u64| {
        let mut run = open.clone();
        let answer = common::advance_feed(&file, &mut run, end, &feed_of(bags), &mut [JUNK; 3]);
        assert!(answer.number == 0 || run == open);
        (answer.number, standing(&file, &run).0)
    };
    assert_eq!(number(&[(5, &[(0, 1)]), (7, &[])], 9), (11, 6));
    assert_eq!(number(&[(6, &[(0, 1)]), (7, &[])], 9), (0, 10));
    assert_eq!(number(&[], 5), (11, 6));
    assert_eq!(number(&[], 6), (0, 7));
}

#[test]
fn model_run_feed_times() {
    let file = cue_source(0, 1).file();
    let good_run = started(&file);
    let mut bad_run = good_run.clone();
    bad_run[8] = 3;
    let (good_feed, bad_feed) = (feed_of(&[(5, &[])]), feed_of(&[(5, &[(4, 9)])]));
    let number = |file: &[u8], run: &[u8], feed: &[u8]| {
        let (mut lent, mut trace) = (run.to_vec(), [JUNK; 8]);
        let answer = reference::advance_feed(file, &mut lent, HIGHEST + 1, feed, &mut trace);
        assert_eq!(answer, Fed::refused(answer.number));
        assert!(lent == run && trace == [JUNK; 8], "a refusal writes no byte");
        answer.number
    };
    assert_eq!(number(&file[1..], &bad_run, &bad_feed), 3);
    assert_eq!(number(&file, &bad_run, &bad_feed), 10);
    assert_eq!(number(&file, &good_run[..saved_run::length(2) - 1], &bad_feed), 10);
    assert_eq!(number(&file, &good_run, &bad_feed), 19);
    assert_eq!(number(&file, &good_run, &good_feed), 11);
}

#[test]
fn the_worked_run_by_feeds() {
    let cues = cue_source(0, 1);
    let no_bag = run(&cues, 30, &feed_of(&[]), 100);
    assert_eq!(no_bag, (fed(0, 0, 3, 6, 30), vec![20, 30], 31));
    // Bags that give nothing divide the run, and change nothing in it.
    let divided = run(&cues, 30, &feed_of(&[(10, &[]), (19, &[]), (20, &[])]), 100);
    assert_eq!(divided, (fed(0, 3, 3, 6, 30), vec![20, 30], 31));
    let up_to_the_end = run(&cues, 30, &feed_of(&[(20, &[]), (30, &[])]), 100);
    assert_eq!(up_to_the_end, (fed(0, 2, 3, 6, 30), vec![20, 30], 31));
    // Each bag that gives something is a step, here one that reaches nothing.
    let given = run(&cues, 30, &feed_of(&[(10, &[]), (25, &[(0, 5)])]), 100);
    assert_eq!(given, (fed(0, 2, 4, 7, 30), vec![20, 30], 31));
}

#[test]
fn stopped_by_the_trace() {
    let cues = cue_source(0, 1);
    let bags = feed_of(&[(10, &[]), (25, &[(0, 5)])]);
    // At the second bag, before and after an instant of its own call.
    assert_eq!(run(&cues, 30, &bags, 14), (fed(15, 1, 1, 2, 0), vec![], 11));
    let later = feed_of(&[(10, &[]), (30, &[(0, 5)])]);
    assert_eq!(run(&cues, 30, &later, 29), (fed(15, 1, 2, 4, 15), vec![20], 21));
    // At the first bag, and on the way to the end with every bag counted.
    let early = feed_of(&[(20, &[]), (30, &[])]);
    assert_eq!(run(&cues, 30, &early, 0), (fed(15, 0, 1, 2, 0), vec![], 11));
    assert_eq!(run(&cues, 30, &bags, 29), (fed(15, 2, 3, 5, 15), vec![20], 26));
    assert_eq!(run(&cues, 40, &bags, 44), (fed(15, 2, 4, 7, 30), vec![20, 30], 31));
    assert_eq!(run(&cues, 40, &bags, 45), (fed(0, 2, 5, 9, 45), vec![20, 30, 40], 41));
}

#[test]
fn stopped_by_an_endless_instant() {
    let hold = relayed_hold(2, 0);
    // A bag that jams, after an instant of its own call and one bag without messages.
    let jam = feed_of(&[(2, &[]), (6, &[(1, JAM)]), (8, &[])]);
    assert_eq!(run(&hold, 20, &jam, 100), (fed(13, 1, 1, 1, 0), vec![], 5));
    assert_eq!(run(&endless(), 0, &feed_of(&[(0, &[])]), 9), (fed(13, 0, 0, 0, 0), vec![], 0));
    let mut late = Builder::new();
    late.atomic(0, &[phase(7, 1, &[]), phase(0, 1, &[])]);
    let before = feed_of(&[(3, &[]), (5, &[(0, 1)])]);
    assert_eq!(run(&late, 10, &before, 9), (fed(13, 2, 1, 1, 0), vec![], 6));
    assert_eq!(run(&late, 6, &before, 9), (fed(0, 2, 1, 1, 0), vec![], 7));
}

#[test]
fn one_call_for_the_bags_that_are_left() {
    let cues = cue_source(0, 1);
    let file = cues.file();
    let bags = [(10, &[][..]), (25, &[(0, 5)]), (30, &[]), (55, &[(1, 1), (1, 1)])];
    let whole = run(&cues, 90, &feed_of(&bags), 1_000);
    for room in 15..60 {
        let (mut run, mut left, mut moments) = (started(&file), &bags[..], Vec::new());
        loop {
            let mut trace = vec![JUNK; room];
            let fed = common::advance_feed(&file, &mut run, 90, &feed_of(left), &mut trace);
            let written = records(&trace[..fed.trace_bytes as usize]);
            moments.extend(written.into_iter().map(|record| record.0));
            left = &left[fed.bags as usize..];
            if fed.number == 0 {
                break;
            }
            assert!(fed.number == 15 && fed.trace_bytes > 0, "{fed:?}");
        }
        assert_eq!((moments, standing(&file, &run).0), (whole.1.clone(), whole.2));
    }
}

#[test]
fn no_bag_and_the_end_at_the_open_moment() {
    assert_eq!(run(&cue_source(0, 1), 0, &[0, 0], 0), (fed(0, 0, 0, 0, 0), vec![], 1));
    assert_eq!(run(&endless(), 0, &[0, 0], 0), (fed(13, 0, 0, 0, 0), vec![], 0));
    assert_eq!(run(&Builder::new(), 0, &[0, 0], 0), (fed(0, 0, 0, 0, 0), vec![], 1));
}
