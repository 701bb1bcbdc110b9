//! Which number is given where several conditions hold: rows downwards, records in order.

mod common;

use common::{started, JUNK};
use reference::builder::{phase, rule, Builder, NEVER};
use reference::examples::{cue_source, repeated_way_out};
use reference::{Advanced, Reading, Written};

/// Where the sections of the worked example begin, its end after them.
const SECTIONS: [usize; 5] = [0, 17, 109, 147, 161];

fn worked() -> Vec<u8> {
    cue_source(0, 1).file()
}

#[test]
fn every_proper_front_is_cut_off() {
    let file = worked();
    assert_eq!(file.len(), SECTIONS[4]);
    for length in 0..file.len() {
        assert_eq!(reference::check_model(&file[..length]), 1, "{length} bytes");
    }
}

#[test]
fn one_byte_more_is_no_fifth_section() {
    let mut file = worked();
    file.push(0);
    assert_eq!(reference::check_model(&file), 20);
}

#[test]
fn one_byte_more_after_the_fifth_section_is_left_over() {
    let mut file = worked();
    file.extend([1, 0, 2, 0]);
    assert_eq!(reference::check_model(&file), 2);
}

#[test]
fn a_cut_section_before_its_bad_records() {
    for (section, record) in [(0, 5), (1, 18), (2, 18), (3, 4)] {
        let mut file = worked();
        let at = SECTIONS[section];
        // A first record that breaks its lines in any section, and a cut in the second record.
        file[at + 2..at + 2 + record].fill(254);
        assert_ne!(reference::check_model(&file), 1);
        file.truncate(at + 2 + record + 1);
        assert_eq!(reference::check_model(&file), 1, "section {section}");
    }
}

#[test]
fn a_bad_record_before_a_cut_count_of_the_next_section() {
    for (section, number) in [(0, 4), (1, 6), (2, 7)] {
        let mut file = worked();
        file[SECTIONS[section] + 2] = 254;
        file[SECTIONS[section] + 3] = 254;
        file[SECTIONS[section] + 4] = 254;
        file[SECTIONS[section] + 5] = 254;
        file.truncate(SECTIONS[section + 1] + 1);
        assert_eq!(reference::check_model(&file), number, "section {section}");
    }
}

#[test]
fn limit_then_sum_then_cut() {
    let many = |atomics: usize, count: u16| {
        let mut model = Builder::new();
        let phases = vec![phase(NEVER, 0, &[]); 60];
        (0..atomics).for_each(|_| assert!(model.atomic(0, &phases) > 0));
        let mut file = model.file();
        let at = 2 + 5 * (atomics + 1);
        file[at..at + 2].copy_from_slice(&count.to_le_bytes());
        file.truncate(at + 2 + 10);
        reference::check_model(&file)
    };
    assert_eq!(many(10, 600), 3, "over the limit, and the sum");
    assert_eq!(many(10, 512), 5, "at the limit, and not the sum");
    assert_eq!(many(1, 60), 1, "the sum, but cut");
    assert_eq!(many(1, 59), 5, "not the sum, and cut");
}

#[test]
fn an_earlier_section_goes_first() {
    let mut file = worked();
    file[SECTIONS[3] + 2] = 9;
    assert_eq!(reference::check_model(&file), 8);
    file[SECTIONS[2] + 2] = 9;
    assert_eq!(reference::check_model(&file), 7);
    file[SECTIONS[1] + 6] = 9;
    assert_eq!(reference::check_model(&file), 6);
    file[SECTIONS[0] + 2 + 4] = 1;
    assert_eq!(reference::check_model(&file), 4);
}

#[test]
fn what_follows_the_couplings_before_routes() {
    let file = repeated_way_out(25, 41).file();
    let followed = |bytes: &[u8]| reference::check_model(&[&file, bytes].concat());
    assert_eq!(followed(&[]), 9);
    assert_eq!(followed(&[0]), 20);
    assert_eq!(followed(&[1, 0, 2]), 9);
    assert_eq!(followed(&[1, 0, 2, 0]), 2);
}

#[test]
fn advance_model_run_time_bag() {
    let file = worked();
    let bad_bag = [4, 0, 0];
    let mut bad_run = started(&file);
    bad_run[8] = 3;
    let mut bad_model = file.clone();
    bad_model.extend([1, 0, 2, 0]);
    let mut trace = vec![JUNK; 8];
    let mut number = |model: &[u8], run: &[u8], t: u64| {
        let mut lent = run.to_vec();
        let mut rules = [JUNK; 4];
        let answer = reference::advance(model, &mut lent, t, &bad_bag, &mut trace, &mut rules);
        assert_eq!(answer, Advanced::refused(answer.number));
        assert_eq!(lent, run);
        assert_eq!(trace, [JUNK; 8]);
        assert_eq!(rules, [JUNK; 4]);
        answer.number
    };
    let late = 1_000_000_000_001;
    assert_eq!(number(&bad_model, &bad_run, late), 2);
    assert_eq!(number(&file, &bad_run, late), 10);
    assert_eq!(number(&file, &started(&file), late), 11);
    assert_eq!(number(&file, &started(&file), 0), 12);
}

#[test]
fn reading_model_run_position() {
    let file = worked();
    let run = started(&file);
    let mut bad_run = run.clone();
    bad_run[8] = 1;
    assert_eq!(reference::read(&file[1..], &bad_run, 2), Reading::refused(3));
    assert_eq!(reference::read(&file, &bad_run, 2), Reading::refused(10));
    assert_eq!(common::read(&file, &run, 2), Reading::refused(16));
    for position in [256, 1 << 16, 1 << 32, u64::MAX] {
        assert_eq!(common::read(&file, &run, position), Reading::refused(16));
    }
    let reading = Reading { number: 0, phase: 0, last: 0, next_due: 10 };
    assert_eq!(common::read(&file, &run, 1), reading);
    let mut resting = Builder::new();
    resting.atomic(0, &[phase(NEVER, 0, &[])]);
    let file = resting.file();
    assert_eq!(common::read(&file, &started(&file), 0).next_due, u64::MAX);
}

#[test]
fn a_model_without_atomics_has_no_position() {
    let file = Builder::new().file();
    assert_eq!(common::read(&file, &started(&file), 0), Reading::refused(16));
}

#[test]
fn start_and_flatten_model_then_room() {
    let file = worked();
    assert_eq!(reference::start(&file[1..], &mut []), Written::refused(3));
    assert_eq!(reference::start(&file, &mut []), Written::refused(15));
    let mut short = vec![JUNK; 27];
    assert_eq!(reference::start(&file, &mut short), Written::refused(15));
    assert_eq!(short, [JUNK; 27]);
    assert_eq!(reference::start(&file, &mut [JUNK; 28]), Written { number: 0, bytes: 28 });
    assert_eq!(reference::flatten(&file[1..], &mut []), Written::refused(3));
    let mut short = vec![JUNK; 160];
    assert_eq!(reference::flatten(&file, &mut short), Written::refused(15));
    assert_eq!(short, [JUNK; 160]);
    assert_eq!(reference::flatten(&file, &mut [JUNK; 161]), Written { number: 0, bytes: 161 });
}

#[test]
fn bags() {
    let file = worked();
    let number = |bag: &[u8]| common::advance(&file, &mut started(&file), 5, bag, &mut []).number;
    assert_eq!(number(&[0; 48]), 0);
    for length in [1, 2, 4, 47, 49, 51] {
        assert_eq!(number(&vec![0; length]), 12, "{length} bytes");
    }
    assert_eq!(number(&[3, 255, 255]), 0);
    assert_eq!(number(&[0, 0, 0, 4, 0, 0]), 12);
    // The bag is checked even where nothing comes to be done with it.
    let mut endless = Builder::new();
    endless.atomic(0, &[phase(0, 0, &[])]);
    let file = endless.file();
    assert_eq!(common::advance(&file, &mut started(&file), 5, &[9, 9, 9], &mut []).number, 12);
}

#[test]
fn a_rule_is_refused_before_a_later_section_is_looked_at() {
    let mut model = cue_source(0, 1);
    model.rule(rule(0, 0, 0, 0));
    let mut file = model.file();
    file.truncate(file.len() - 13);
    assert_eq!(reference::check_model(&file), 7);
}
