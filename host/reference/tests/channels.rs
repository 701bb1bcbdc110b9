//! Channels: parts of buffers, places of bags, shares and what is left over, each number of a channel and of the
//! whole call. Every call is made on the nest, on its flat form and on the flat machine.

mod common;

use common::{flat, started, JUNK};
use reference::builder::{bag, phase, Builder, NEVER};
use reference::examples::{cue_source, endless, zero_stay_counter, Counting};
use reference::saved_run;
use reference::{flat_machine, Advanced, Asked, Channels, Place};

const HIGHEST: u64 = 1_000_000_000_000;

/// One atomic that ticks every 1 without output, 1 step an instant.
fn ticker() -> Builder {
    let mut model = Builder::new();
    model.atomic(0, &[phase(1, 0, &[])]);
    model
}

/// So many started runs, one behind the other, and some bytes beyond.
fn runs(model: &Builder, count: usize, beyond: usize) -> Vec<u8> {
    let length = saved_run::length(model.model().atomics().len());
    let mut runs = started(&model.file())[..length].repeat(count);
    runs.extend(vec![JUNK; beyond]);
    runs
}

fn asked(count: u64, t: u64, allowance: u64) -> Asked<'static> {
    Asked { count, t, allowance, bags: &[], places: [Place::default(); 8] }
}

fn advance(model: &Builder, runs: &mut [u8], asked: &Asked, traces: &mut [u8]) -> Channels {
    let (file, flat) = (model.file(), flat(&model.file()));
    let mut others = [(); 2].map(|()| (runs.to_vec(), traces.to_vec()));
    let answer = reference::advance_channels(&file, runs, asked, traces);
    let [on_flat, machine] = &mut others;
    let answers = [
        reference::advance_channels(&flat, &mut on_flat.0, asked, &mut on_flat.1),
        flat_machine::advance_channels(&flat, &mut machine.0, asked, &mut machine.1),
    ];
    assert_eq!(answers, [answer; 2]);
    for other in &others {
        assert!(other.0 == runs && other.1 == traces, "the buffers differ");
    }
    answer
}

fn entry(number: u64, instants: u64, steps: u64, trace_bytes: u64) -> Advanced {
    Advanced { number, instants, steps, trace_bytes }
}

fn number_of(count: u64, allowance: u64) -> u64 {
    let mut runs = runs(&ticker(), 8, 0);
    let before = runs.clone();
    let answer = advance(&ticker(), &mut runs, &asked(count, 0, allowance), &mut []);
    assert!(answer.number == 0 || (answer == Channels::refused(21) && runs == before));
    answer.number
}

#[test]
fn numbers_of_channels_and_allowances() {
    for count in 1..=8 {
        assert_eq!(number_of(count, 1_024 * count - 1), 21, "{count}");
        assert_eq!(number_of(count, 1_024 * count), 0, "{count}");
        assert_eq!(number_of(count, u64::MAX), 0, "{count}");
    }
    for count in [0, 9, 10, 257, 1 << 54, 1 << 61, u64::MAX] {
        assert_eq!(number_of(count, u64::MAX), 21, "{count}");
        assert_eq!(number_of(count, 0), 21, "{count}");
    }
}

#[test]
fn the_model_after_21() {
    let file = ticker().file();
    let mut runs = runs(&ticker(), 2, 0);
    for (allowance, number) in [(2_048, 1), (2_047, 21)] {
        let cut = &file[..file.len() - 1];
        let answer = reference::advance_channels(cut, &mut runs, &asked(2, 5, allowance), &mut []);
        assert_eq!(answer, Channels::refused(number));
    }
}

#[test]
fn parts_and_what_lies_beyond() {
    let mut runs = runs(&cue_source(0, 1), 3, 2);
    let mut traces = vec![JUNK; 3 * 15 + 2];
    let answer = advance(&cue_source(0, 1), &mut runs, &asked(3, 20, 3_072), &mut traces);
    assert_eq!(answer.channels[..3], [entry(0, 2, 4, 15); 3]);
    assert_eq!(answer.channels[3..], [entry(0, 0, 0, 0); 5]);
    assert_eq!((&runs[3 * 28..], &traces[45..]), (&[JUNK; 2][..], &[JUNK; 2][..]));
    assert!((0..3).all(|channel| runs[28 * channel] == 21 && traces[15 * channel] == 20));
    // A byte less, and no part holds a run; a trace part of 14 bytes holds no record.
    let mut short = runs[..3 * 28 - 1].to_vec();
    let answer = advance(&cue_source(0, 1), &mut short, &asked(3, 30, 3_072), &mut traces);
    assert_eq!(answer.channels[..3], [entry(10, 0, 0, 0); 3]);
    let answer = advance(&cue_source(0, 1), &mut runs, &asked(3, 30, 3_072), &mut traces[..44]);
    assert_eq!(answer.channels[..3], [entry(15, 0, 0, 0); 3]);
    let answer = advance(&cue_source(0, 1), &mut runs, &asked(3, 30, 3_072), &mut []);
    assert_eq!(answer.channels[..3], [entry(15, 0, 0, 0); 3]);
}

#[test]
fn shares_and_what_is_left_over() {
    // One instant of one step for each moment from 1 on: so many steps as instants.
    let steps = |count: u64, allowance: u64, t: u64, open: &[u8]| {
        let mut runs = runs(&ticker(), count as usize, 0);
        let length = runs.len() / count as usize;
        open.iter().enumerate().for_each(|(channel, &count)| runs[channel * length + 8] = count);
        let answer = advance(&ticker(), &mut runs, &asked(count, t, allowance), &mut []);
        let entries = answer.channels[..count as usize].iter();
        entries.map(|entry| (entry.number, entry.steps)).collect::<Vec<(u64, u64)>>()
    };
    assert_eq!(steps(1, 1_024, 1_024, &[]), [(0, 1_024)]);
    assert_eq!(steps(1, 1_024, 1_025, &[]), [(22, 1_024)]);
    assert_eq!(steps(2, 2_049, 1_025, &[]), [(22, 1_024), (22, 1_024)]);
    assert_eq!(steps(2, 2_048, 1_000, &[]), [(0, 1_000), (0, 1_000)]);
    // The first does not fit, so that its share is left over.
    assert_eq!(steps(2, 2_048, 2_049, &[9]), [(10, 0), (22, 2_048)]);
    assert_eq!(steps(3, 3_074, 9_000, &[9, 9]), [(10, 0), (10, 0), (22, 3_072)]);
    assert_eq!(steps(3, 3_072, 1_500, &[9]), [(10, 0), (0, 1_500), (0, 1_500)]);
    assert_eq!(steps(3, 3_072, 1_700, &[9]), [(10, 0), (0, 1_700), (22, 1_372)]);
}

#[test]
fn places_of_bags() {
    let mut resting = Builder::new();
    resting.atomic(0, &[phase(NEVER, 0, &[])]);
    let bags = [&bag(&[(1, 5)])[..], &[4, 0, 0]].concat();
    for (start, length, number) in [
        (0, 3, 0),
        (0, 0, 0),
        (6, 0, 0),
        (7, 0, 12),
        (3, 3, 12),
        (0, 2, 12),
        (4, 3, 12),
        (6, 1, 12),
        (u64::MAX, 1, 12),
        (1, u64::MAX, 12),
        (u64::MAX, u64::MAX, 12),
    ] {
        let mut runs = runs(&resting, 2, 0);
        let mut call = asked(2, 5, 2_048);
        (call.bags, call.places[1]) = (&bags, Place { start, length });
        let answer = advance(&resting, &mut runs, &call, &mut []);
        assert_eq!(answer.channels[0], entry(0, 0, 0, 0));
        assert_eq!(answer.channels[1].number, number, "{length} bytes from {start} on");
        assert_eq!(answer.channels[1].instants, u64::from(number == 0 && length > 0));
        // The time comes before it.
        call.t = HIGHEST + 1;
        let answer = advance(&resting, &mut runs, &call, &mut []);
        assert_eq!(answer.channels[1], entry(11, 0, 0, 0));
    }
}

#[test]
fn out_of_steps_last() {
    // One step at 1, then 1,024 or more at 2 by the bag.
    let counter = |tail| {
        let mut model = zero_stay_counter(Counting { by_bag: true, cycle: 30, rounds: 33, tail });
        model.atomic(0, &[phase(1, 1, &[]), phase(NEVER, 1, &[])]);
        model
    };
    let given = bag(&[(0, 5)]);
    let number = |model: &Builder, allowance: u64, trace_length: usize| {
        let mut runs = runs(model, 1, 0);
        let mut call = asked(1, 2, allowance);
        (call.bags, call.places[0].length) = (&given, 3);
        let answer = advance(model, &mut runs, &call, &mut vec![JUNK; trace_length]);
        let open = if answer.channels[0].number == 0 { 3 } else { 2 };
        assert_eq!(runs[0], open, "the bag is taken only where it is done");
        (answer.channels[0].number, answer.channels[0].steps)
    };
    assert_eq!(number(&counter(32), 1_025, 600), (0, 1_025));
    assert_eq!(number(&counter(32), 1_024, 600), (22, 1));
    assert_eq!(number(&counter(32), 1_024, 500), (15, 1));
    assert_eq!(number(&counter(33), 1_024, 600), (13, 1));
    assert_eq!(number(&counter(33), 1_024, 500), (13, 1));
}

#[test]
fn called_again_until_all_are_done() {
    let mut runs = runs(&ticker(), 2, 0);
    let call = asked(2, 2_500, 2_048);
    let mut numbers = Vec::new();
    for _ in 0..5 {
        let answer = advance(&ticker(), &mut runs, &call, &mut []);
        numbers.push([0, 1].map(|k| (answer.channels[k].number, answer.channels[k].steps)));
    }
    let expected = [
        [(22, 1_024), (22, 1_024)],
        [(22, 1_024), (22, 1_024)],
        [(0, 452), (0, 452)],
        [(11, 0), (11, 0)],
        [(11, 0), (11, 0)],
    ];
    assert_eq!(numbers, expected);
}

#[test]
fn an_endless_channel_leaves_its_share() {
    let mut runs = runs(&endless(), 2, 0);
    let before = runs.clone();
    let answer = advance(&endless(), &mut runs, &asked(2, 0, 2_048), &mut []);
    assert_eq!(answer.channels[..2], [entry(13, 0, 0, 0); 2]);
    assert_eq!(runs, before);
}
