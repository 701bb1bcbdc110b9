//! The fifth section: which bytes after the couplings are one, which ranges it forbids, and in what order a
//! file with it is refused.

mod common;

use common::{started, JUNK};
use reference::builder::{phase, rule, Builder, NEVER};
use reference::decode::decode;
use reference::examples::{cue_source, repeated_way_out};
use reference::limits::UNBOUNDED;
use reference::ranges::Ranges;
use reference::records::Rule;
use reference::{Advanced, Fed, Reading, Written};

const FIFTH: [u8; 3] = [1, 0, 2];

/// The number of a model whose file goes on with these bytes after its couplings.
fn followed(model: &Builder, bytes: &[u8]) -> u64 {
    reference::check_model(&[&model.file(), bytes].concat())
}

/// The cue source with a rule more, that has these elapsed ends.
fn with_ends(low_elapsed: u32, high_elapsed: u32) -> Builder {
    let mut model = cue_source(0, 1);
    model.rule(Rule { low_elapsed, high_elapsed, ..rule(2, 0, 9, 1) });
    model
}

/// One row more, of the root with itself.
fn with_bad_coupling(mut model: Builder) -> Builder {
    model.couple(0, 0, 0, 0);
    model
}

/// 1,025 routes, and a rule with these elapsed ends.
fn too_many_routes(ends: Option<(u32, u32)>) -> Builder {
    let mut model = repeated_way_out(25, 41);
    if let Some((low_elapsed, high_elapsed)) = ends {
        model.rule(Rule { low_elapsed, high_elapsed, ..rule(2, 0, 0, 0) });
    }
    model
}

const EQUAL: [(u32, u32); 4] =
    [(0, 0), (500, 500), (UNBOUNDED - 1, UNBOUNDED - 1), (UNBOUNDED, UNBOUNDED)];

#[test]
fn a_file_of_five_sections_is_half_open() {
    let file = [cue_source(0, 1).file(), FIFTH.to_vec()].concat();
    let model = decode(&file).expect("an accepted model");
    assert_eq!(model.ranges, Ranges::HalfOpen);
    assert_eq!(model.encode(), file);
    assert_eq!(decode(&file[..file.len() - 3]).unwrap().ranges, Ranges::Inclusive);
    // A lone root may have one too.
    assert_eq!(followed(&Builder::new(), &FIFTH), 0);
}

#[test]
fn every_way_to_20() {
    let model = cue_source(0, 1);
    for byte in 0..=255 {
        assert_eq!(followed(&model, &[byte]), 20, "{byte}");
    }
    for bytes in [[1, 0], [0, 0], [2, 0], [1, 1], [1, 2], [255, 255]] {
        assert_eq!(followed(&model, &bytes), 20, "{bytes:?}");
    }
    for count in (0..=u16::MAX).filter(|count| *count != 1) {
        let [low, high] = count.to_le_bytes();
        assert_eq!(followed(&model, &[low, high, 2]), 20, "count {count}");
    }
    for byte in (0..=255).filter(|byte| *byte != 2) {
        assert_eq!(followed(&model, &[1, 0, byte]), 20, "byte {byte}");
    }
    // As many bytes as another count says, the section in other places, and more after what is none.
    for bytes in [&[0, 0][..], &[2, 0, 2, 2], &[0, 1, 0, 2], &[0, 1, 0, 2, 0], &[0; 18], &[2, 1, 0]]
    {
        assert_eq!(followed(&model, bytes), 20, "{bytes:?}");
    }
}

#[test]
fn bytes_after_the_fifth_section_are_left_over() {
    let model = cue_source(0, 1);
    for byte in 0..=255 {
        assert_eq!(followed(&model, &[1, 0, 2, byte]), 2, "{byte}");
    }
    assert_eq!(followed(&model, &[1, 0, 2, 1, 0, 2]), 2);
    assert_eq!(followed(&model, &[1, 0, 2, 2]), 2);
}

#[test]
fn equal_elapsed_ends() {
    for (low, high) in EQUAL {
        assert_eq!(followed(&with_ends(low, high), &[]), 0, "{low} in four sections");
        assert_eq!(followed(&with_ends(low, high), &FIFTH), 7, "{low} in five");
    }
    for (low, high) in [(0, 1), (499, 500), (UNBOUNDED - 1, UNBOUNDED), (0, UNBOUNDED)] {
        assert_eq!(followed(&with_ends(low, high), &[]), 0);
        assert_eq!(followed(&with_ends(low, high), &FIFTH), 0);
    }
    // Value ranges keep both ends.
    let mut model = cue_source(0, 1);
    model.rule(Rule { low_value: 0, high_value: 0, ..rule(2, 0, 0, 1) });
    assert_eq!(followed(&model, &FIFTH), 0);
}

#[test]
fn whichever_rule_it_is() {
    for bad in [0, 500, 1_023] {
        let mut model = Builder::new();
        model.atomic(0, &[phase(NEVER, 0, &[])]);
        for number in 0..1_024 {
            let high_elapsed = if number == bad { 9 } else { 10 };
            model.rule(Rule { low_elapsed: 9, high_elapsed, ..rule(1, 0, 0, 0) });
        }
        assert_eq!((followed(&model, &[]), followed(&model, &FIFTH)), (0, 7));
    }
}

/// A low end above the high one is a fault of its record, and so comes before everything that follows.
#[test]
fn the_records_7_before_the_couplings() {
    for (low, high) in [(1, 0), (501, 500), (UNBOUNDED, UNBOUNDED - 1)] {
        for tail in [&[][..], &FIFTH, &[0], &[1, 0], &[1, 0, 3], &[1, 0, 2, 0]] {
            assert_eq!(followed(&with_ends(low, high), tail), 7, "{tail:?}");
            assert_eq!(followed(&with_bad_coupling(with_ends(low, high)), tail), 7, "{tail:?}");
        }
    }
}

/// Equal ends come after the couplings and after the fifth section itself, before what follows it.
#[test]
fn the_late_7_after_8_and_20() {
    for (low, high) in EQUAL {
        assert_eq!(followed(&with_bad_coupling(with_ends(low, high)), &FIFTH), 8);
        for tail in [&[0][..], &[1, 0], &[1, 0, 3], &[2, 0, 2, 2], &[1, 1, 2]] {
            assert_eq!(followed(&with_ends(low, high), tail), 20, "{tail:?}");
        }
        assert_eq!(followed(&with_ends(low, high), &[1, 0, 2, 0]), 7);
    }
    assert_eq!(followed(&with_bad_coupling(cue_source(0, 1)), &[0]), 8);
}

#[test]
fn routes_come_last() {
    let (plain, equal) = (too_many_routes(None), too_many_routes(Some((5, 5))));
    assert_eq!(followed(&plain, &[]), 9);
    assert_eq!(followed(&plain, &FIFTH), 9);
    for tail in [&[0][..], &[1, 0], &[1, 0, 3], &[0, 0, 2]] {
        assert_eq!(followed(&plain, tail), 20, "{tail:?}");
    }
    assert_eq!(followed(&plain, &[1, 0, 2, 0]), 2);
    assert_eq!((followed(&equal, &[]), followed(&equal, &FIFTH)), (9, 7));
    assert_eq!(followed(&equal, &[1, 0, 2, 0]), 7);
    assert_eq!(followed(&equal, &[1, 0, 1]), 20);
}

/// The four sections alone are accepted, with a part of the fifth they get 20, and what is shorter is cut off.
#[test]
fn every_front_of_a_half_open_file() {
    let file = [cue_source(0, 1).file(), FIFTH.to_vec()].concat();
    let number = |length: usize| reference::check_model(&file[..length]);
    assert!((0..file.len() - 3).all(|length| number(length) == 1));
    assert_eq!([3, 2, 1, 0].map(|missing| number(file.len() - missing)), [0, 20, 20, 0]);
}

#[test]
fn the_largest_file() {
    let largest = |rules: usize| {
        let mut model = Builder::new();
        (0..63).for_each(|number| {
            let phases = vec![phase(NEVER, 0, &[]); if number < 8 { 9 } else { 8 }];
            model.atomic(0, &phases);
        });
        (0..rules).for_each(|_| model.rule(rule(1, 0, 0, 0)));
        model.couple_times(1_024, 1, 0, 0, 0);
        model
    };
    let model = largest(1_024);
    assert_eq!(model.file().len(), 32_072);
    assert_eq!(model.clone().read_as(Ranges::HalfOpen).file().len(), 32_075);
    let numbers = [&[][..], &[0], &FIFTH, &[1, 0, 2, 0]].map(|tail| followed(&model, tail));
    assert_eq!(numbers, [0, 20, 0, 2]);
}

/// 20 comes before the run, the time and the bag are looked at, with zeros, and changes no byte.
#[test]
fn every_call_is_refused_by_20() {
    let good = cue_source(0, 1).file();
    let bad = [&good[..], &[1, 0, 3]].concat();
    for first_run in [started(&good), vec![JUNK; 3]] {
        let (mut run, mut trace, mut rules) = (first_run.clone(), vec![JUNK; 9], vec![JUNK; 4]);
        assert_eq!(reference::start(&bad, &mut run), Written::refused(20));
        let late = 1_000_000_000_001;
        let answer = reference::advance(&bad, &mut run, late, &[9], &mut trace, &mut rules);
        assert_eq!(answer, Advanced::refused(20));
        let fed = reference::advance_feed(&bad, &mut run, late, &[7], &mut trace);
        assert_eq!(fed, Fed::refused(20));
        assert_eq!(reference::read(&bad, &run, 99), Reading::refused(20));
        assert_eq!(reference::flatten(&bad, &mut trace), Written::refused(20));
        assert!(run == first_run && trace == [JUNK; 9] && rules == [JUNK; 4]);
    }
}
