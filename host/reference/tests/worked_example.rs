//! The rows [A] to [H] of the papers' worked table, with the values that stand there.

mod common;

use common::{run, run_with, standing, started, JUNK};
use reference::builder::bag;
use reference::examples::{cue_source, endless};
use reference::Advanced;

#[test]
fn a_this_run() {
    let outcome = run(&cue_source(0, 1), 30, &[]);
    assert_eq!(outcome.answer, (0, 3, 6, 30));
    assert_eq!(outcome.records, [(20, 0, vec![(1, 8)]), (30, 0, vec![(1, 8)])]);
    assert_eq!((outcome.open, outcome.atomics), (31, vec![(0, 30), (2, 30)]));
}

#[test]
fn b_external_first() {
    let outcome = run(&cue_source(1, 1), 30, &[]);
    assert_eq!(outcome.answer, (0, 3, 6, 15));
    assert_eq!(outcome.records, [(20, 0, vec![(1, 8)])]);
    assert_eq!(outcome.open, 31);
}

#[test]
fn c_trace_of_14_bytes() {
    let outcome = run_with(&cue_source(0, 1), 30, &[], 14);
    assert_eq!(outcome.answer, (15, 1, 2, 0));
    assert_eq!(outcome.open, 11);
}

#[test]
fn d_trace_of_15_bytes() {
    let outcome = run_with(&cue_source(0, 1), 30, &[], 15);
    assert_eq!(outcome.answer, (15, 2, 4, 15));
    assert_eq!(outcome.open, 21);
    assert_eq!(outcome.records, [(20, 0, vec![(1, 8)])]);
}

#[test]
fn e_bag_that_reaches_nothing() {
    let outcome = run(&cue_source(0, 1), 0, &bag(&[(0, 5)]));
    assert_eq!(outcome.answer, (0, 1, 1, 0));
    assert_eq!((outcome.open, outcome.atomics), (1, vec![(0, 0), (0, 0)]));
}

#[test]
fn f_first_coupling_doubled() {
    let outcome = run(&cue_source(0, 2), 30, &[]);
    assert_eq!(outcome.records, run(&cue_source(0, 1), 30, &[]).records);
    assert_eq!(outcome.answer, (0, 3, 6, 30));
}

#[test]
fn g_endless_instant() {
    let outcome = run(&endless(), 0, &[]);
    assert_eq!(outcome.answer, (13, 0, 0, 0));
    assert_eq!((outcome.open, outcome.atomics), (0, vec![(0, 0)]));
}

#[test]
fn h_time_below_the_open_moment() {
    let file = cue_source(0, 1).file();
    let mut run = started(&file);
    let mut trace = vec![JUNK; 100];
    common::advance(&file, &mut run, 30, &[], &mut trace);
    assert_eq!(standing(&file, &run).0, 31);
    let (run_before, trace_before) = (run.clone(), trace.clone());
    let answer = common::advance(&file, &mut run, 30, &[], &mut trace);
    assert_eq!(answer, Advanced { number: 11, instants: 0, steps: 0, trace_bytes: 0 });
    assert_eq!((run, trace), (run_before, trace_before));
}

/// The file of the worked example, byte by byte: the layout itself.
#[test]
fn bytes_of_the_file() {
    let mut expected = vec![3, 0];
    expected.extend([0, 0, 0, 0, 0, 1, 0, 2, 0, 0, 1, 0, 3, 0, 0]);
    expected.extend([5, 0]);
    expected.extend([10, 0, 0, 0, 1, 1, 0, 7, 0, 0, 0, 0, 0, 0, 0, 0, 0, 0]);
    expected.extend([0, 0, 0, 0, 0, 1, 0, 8, 0, 0, 0, 0, 0, 0, 0, 0, 0, 0]);
    expected.extend([255, 255, 255, 255, 0, 0, 0, 0, 0, 0, 0, 0, 0, 0, 0, 0, 0, 0]);
    expected.extend([5, 0, 0, 0, 0, 1, 0, 100, 0, 0, 0, 0, 0, 0, 0, 0, 0, 0]);
    expected.extend([10, 0, 0, 0, 0, 1, 1, 8, 0, 0, 0, 0, 0, 0, 0, 0, 0, 0]);
    expected.extend([2, 0]);
    expected.extend([2, 0, 1, 0, 7, 0, 7, 0, 1, 0, 0, 0, 0, 0, 255, 255, 255, 255]);
    expected.extend([2, 1, 2, 0, 8, 0, 8, 0, 1, 0, 0, 0, 0, 0, 255, 255, 255, 255]);
    expected.extend([3, 0]);
    expected.extend([1, 0, 2, 0, 2, 0, 0, 0, 2, 1, 0, 1]);
    let file = cue_source(0, 1).file();
    assert_eq!(file, expected);
    assert_eq!(reference::check_model(&file), 0);
    // It has no nest, so it is its own flat form.
    assert_eq!(common::flat(&file), file);
}

/// The first record and the saved run of [A], byte by byte.
#[test]
fn bytes_of_the_trace_and_the_run() {
    let file = cue_source(0, 1).file();
    let mut run = started(&file);
    let mut trace = vec![JUNK; 40];
    common::advance(&file, &mut run, 30, &[], &mut trace);
    assert_eq!(trace[..15], [20, 0, 0, 0, 0, 0, 0, 0, 0, 0, 1, 0, 1, 8, 0]);
    assert_eq!(trace[15..30], [30, 0, 0, 0, 0, 0, 0, 0, 0, 0, 1, 0, 1, 8, 0]);
    let mut expected = vec![31, 0, 0, 0, 0, 0, 0, 0, 2, 0];
    expected.extend([0, 30, 0, 0, 0, 0, 0, 0, 0]);
    expected.extend([2, 30, 0, 0, 0, 0, 0, 0, 0]);
    assert_eq!(run[..28], expected[..]);
}
