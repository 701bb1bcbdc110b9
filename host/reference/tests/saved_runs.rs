//! When a saved run fits, byte by byte at its corners.

mod common;

use common::{standing, started, JUNK};
use reference::builder::{phase, Builder, NEVER};
use reference::limits::HIGHEST_OPEN_MOMENT;
use reference::saved_run::{AtomicRun, SavedRun};
use reference::Advanced;

/// Three phases: advance 10, advance 0, never.
fn model() -> Vec<u8> {
    let mut model = Builder::new();
    model.atomic(0, &[phase(10, 2, &[]), phase(0, 2, &[]), phase(NEVER, 2, &[])]);
    model.file()
}

/// Whether a run with one atomic fits, by what reading says.
fn fits(open: u64, phase: u8, last: u64) -> bool {
    let run = SavedRun { open, atomics: vec![AtomicRun { phase, last }] }.encode();
    let number = common::read(&model(), &run, 0).number;
    // Advance says the same, whatever the time.
    let advanced = common::advance(&model(), &mut run.clone(), u64::MAX, &[], &mut []).number;
    assert_eq!(advanced, if number == 0 { 11 } else { 10 });
    assert!([0, 10].contains(&number));
    number == 0
}

#[test]
fn last_moments() {
    assert!(fits(0, 2, 0), "0 is allowed with open moment 0");
    assert!(!fits(0, 2, 1));
    assert!(fits(7, 2, 6));
    assert!(!fits(7, 2, 7));
    assert!(!fits(7, 2, 8));
    assert!(fits(7, 2, 0));
    assert!(!fits(7, 2, u64::MAX));
    assert!(!fits(0, 0, u64::MAX));
}

#[test]
fn nothing_is_due_before_the_open_moment() {
    assert!(fits(16, 0, 6), "due at the open moment");
    assert!(!fits(17, 0, 6), "due one before it");
    assert!(fits(0, 1, 0), "a zero-stay phase fits with open moment 0 alone");
    assert!(!fits(1, 1, 0));
    assert!(!fits(7, 1, 6));
    assert!(fits(HIGHEST_OPEN_MOMENT, 2, 0), "never is no number to add");
    assert!(!fits(HIGHEST_OPEN_MOMENT, 0, HIGHEST_OPEN_MOMENT - 11));
    assert!(fits(HIGHEST_OPEN_MOMENT, 0, HIGHEST_OPEN_MOMENT - 10));
}

#[test]
fn open_moments() {
    assert!(fits(HIGHEST_OPEN_MOMENT, 2, 5));
    assert!(!fits(HIGHEST_OPEN_MOMENT + 1, 2, 5));
    assert!(!fits(u64::MAX, 2, 5));
}

#[test]
fn phases() {
    assert!(fits(3, 2, 2));
    assert!(!fits(3, 3, 2));
    assert!(!fits(3, 255, 2));
}

#[test]
fn counts_and_lengths() {
    let file = model();
    let run = started(&file);
    for count in [0u16, 2, 256, 257] {
        let mut run = run.clone();
        run[8..10].copy_from_slice(&count.to_le_bytes());
        assert_eq!(common::read(&file, &run, 0).number, 10, "count {count}");
    }
    for length in 0..19 {
        let mut short = run[..length].to_vec();
        assert_eq!(common::read(&file, &short, 0).number, 10);
        let answer = common::advance(&file, &mut short, 0, &[], &mut []);
        assert_eq!(answer, Advanced::refused(10));
        assert_eq!(short, run[..length]);
    }
    assert_eq!(common::read(&file, &run[..19], 0).number, 0);
}

#[test]
fn a_run_without_atomics() {
    let file = Builder::new().file();
    let mut run = started(&file);
    assert_eq!(run[..10], [0; 10]);
    let answer = common::advance(&file, &mut run, 1_000_000_000_000, &[], &mut []);
    assert_eq!(answer, Advanced::refused(0));
    assert_eq!(standing(&file, &run), (HIGHEST_OPEN_MOMENT, vec![]));
    // Nothing can be advanced past the highest time.
    for t in [0, 1_000_000_000_000, 1_000_000_000_001, u64::MAX] {
        assert_eq!(common::advance(&file, &mut run, t, &[], &mut []).number, 11);
    }
}

#[test]
fn start_does_not_read_the_buffer() {
    let file = model();
    let mut buffer = vec![0xFF; 30];
    assert_eq!(reference::start(&file, &mut buffer).bytes, 19);
    let mut expected = vec![0; 30];
    expected[8] = 1;
    expected[19..].fill(0xFF);
    assert_eq!(buffer, expected);
}

#[test]
fn times() {
    let mut model = Builder::new();
    model.atomic(0, &[phase(NEVER, 0, &[])]);
    let file = model.file();
    let mut run = started(&file);
    let mut number = |t: u64| common::advance(&file, &mut run, t, &[], &mut [JUNK; 3]).number;
    assert_eq!(number(1_000_000_000_001), 11);
    assert_eq!(number(5), 0);
    assert_eq!(number(5), 11);
    assert_eq!(number(6), 0);
    assert_eq!(number(1_000_000_000_000), 0);
    assert_eq!(number(1_000_000_000_000), 11);
}
