//! A trace by column and back: bytes that can be read here, each reason for 17 and for 18, lent buffers of
//! every length, and traces of runs.

mod common;

use common::{started, JUNK};
use reference::builder::bag;
use reference::examples::{cue_source, relayed_hold, JAM};
use reference::{columns_to_trace, trace_to_columns, Written};

/// Two steps of one moment, with messages (1, 8) and then (0, 258), (0, 258), (3, 1).
const TWO_STEPS: [u8; 36] = [
    20, 0, 0, 0, 0, 0, 0, 0, 2, 0, 1, 0, 1, 8, 0, //
    20, 0, 0, 0, 0, 0, 0, 0, 3, 0, 3, 0, 0, 2, 1, 0, 2, 1, 3, 1, 0,
];

const TWO_STEPS_BY_COLUMN: [u8; 40] = [
    2, 0, 0, 0, //
    20, 0, 0, 0, 0, 0, 0, 0, 20, 0, 0, 0, 0, 0, 0, 0, //
    2, 0, 3, 0, //
    1, 0, 3, 0, //
    1, 0, 0, 3, //
    8, 0, 2, 1, 2, 1, 1, 0,
];

type Rearranging = fn(&[u8], &mut [u8]) -> Written;

/// What a call answers and writes into a long buffer.
fn outcome(call: Rearranging, bytes: &[u8]) -> (u64, Vec<u8>) {
    let mut out = vec![JUNK; bytes.len() + 9];
    let answer = call(bytes, &mut out);
    let length = answer.bytes as usize;
    assert!(out[length..].iter().all(|&byte| byte == JUNK), "bytes past the length stay");
    out.truncate(length);
    (answer.number, out)
}

fn there(trace: &[u8]) -> (u64, Vec<u8>) {
    outcome(trace_to_columns, trace)
}

fn back(columns: &[u8]) -> (u64, Vec<u8>) {
    outcome(columns_to_trace, columns)
}

/// The bytes of a record, from pairs of port and value.
fn record(moment: u64, step: u16, messages: &[(u8, u16)]) -> Vec<u8> {
    let mut bytes = moment.to_le_bytes().to_vec();
    bytes.extend(step.to_le_bytes());
    bytes.extend((messages.len() as u16).to_le_bytes());
    bytes.extend(bag(messages));
    bytes
}

/// A trace that is taken there, back and there again.
fn assert_trace(trace: &[u8]) {
    let (number, columns) = there(trace);
    assert_eq!((number, columns.len()), (0, trace.len() + 4));
    assert_eq!(back(&columns), (0, trace.to_vec()));
    assert_eq!(there(trace), (0, columns));
}

#[test]
fn bytes_of_both_forms() {
    assert_eq!(there(&TWO_STEPS), (0, TWO_STEPS_BY_COLUMN.to_vec()));
    assert_eq!(back(&TWO_STEPS_BY_COLUMN), (0, TWO_STEPS.to_vec()));
    assert_eq!(there(&[]), (0, vec![0; 4]));
    assert_eq!(back(&[0; 4]), (0, vec![]));
}

#[test]
fn nothing_else_is_asked_of_a_trace() {
    assert_trace(&record(u64::MAX, u16::MAX, &[(3, u16::MAX)]));
    assert_trace(&record(0, 60_000, &[(0, 0)]));
    assert_trace(&record(7, 0, &vec![(2, 5); 65_535]));
    // Numbers rise, though their bytes read from the front do not.
    assert_trace(&[record(255, 255, &[(0, 255), (0, 256)]), record(255, 256, &[(0, 1)])].concat());
    assert_trace(&[record(255, 9, &[(0, 255)]), record(256, 2, &[(0, 1)])].concat());
    // Messages may fall from record to record.
    assert_trace(&[record(1, 0, &[(3, 9)]), record(1, 1, &[(0, 0)])].concat());
    let many: Vec<u8> = (0..65_537).flat_map(|moment| record(moment, 3, &[(0, 1)])).collect();
    assert_trace(&many);
    assert_eq!(there(&many).1[..4], [1, 0, 1, 0]);
}

#[test]
fn no_trace() {
    let one = (0, 1);
    for (what, trace) in [
        ("empty record", record(5, 0, &[])),
        ("empty record at the end", [record(5, 0, &[one]), record(6, 0, &[])].concat()),
        ("pair repeated", [record(5, 1, &[one]), record(5, 1, &[one])].concat()),
        ("step falls", [record(5, 1, &[one]), record(5, 0, &[one])].concat()),
        ("moment falls", [record(5, 1, &[one]), record(4, 2, &[one])].concat()),
        (
            "moment falls by its high byte",
            [record(256, 1, &[one]), record(255, 1, &[one])].concat(),
        ),
        ("falls by port", record(5, 0, &[(1, 0), (0, 9)])),
        ("falls by value", record(5, 0, &[(1, 256), (1, 255)])),
        ("port 4", record(5, 0, &[one, (4, 0)])),
        ("port 255", record(5, 0, &[(255, 0)])),
    ] {
        assert_eq!(there(&trace), (17, vec![]), "{what}");
    }
}

#[test]
fn a_trace_cut_anywhere() {
    for length in 0..TWO_STEPS.len() {
        let number = if length == 0 || length == 15 { 0 } else { 17 };
        assert_eq!(there(&TWO_STEPS[..length]).0, number, "{length} bytes");
    }
    assert_eq!(there(&[&TWO_STEPS[..], &[0]].concat()).0, 17);
}

#[test]
fn columns_of_no_trace() {
    let changed = |at: usize, byte: u8| {
        let mut columns = TWO_STEPS_BY_COLUMN.to_vec();
        columns[at] = byte;
        columns
    };
    for (what, at, byte) in [
        ("one record more", 0, 3),
        ("one record less", 0, 1),
        ("no record", 0, 0),
        ("very many records", 3, 255),
        ("moment falls", 12, 19),
        ("pair repeated", 22, 2),
        ("step falls", 22, 1),
        ("one message less", 24, 0),
        ("one message more", 24, 2),
        ("falls by port", 29, 1),
        ("port 4", 31, 4),
        ("port 255", 31, 255),
        ("falls by value", 36, 1),
    ] {
        assert_eq!(back(&changed(at, byte)), (18, vec![]), "{what}");
    }
    // The counts add up, but the first record is empty.
    let mut columns = changed(24, 0);
    columns[26] = 4;
    assert_eq!(back(&columns), (18, vec![]));
}

#[test]
fn columns_cut_anywhere_and_left_over() {
    for length in 0..TWO_STEPS_BY_COLUMN.len() {
        assert_eq!(back(&TWO_STEPS_BY_COLUMN[..length]).0, 18, "{length} bytes");
    }
    for length in [1, 2, 3, 12, 15] {
        assert_eq!(back(&[&TWO_STEPS_BY_COLUMN[..], &vec![0; length]].concat()).0, 18);
        assert_eq!(back(&vec![0; 4 + length]).0, 18);
    }
}

#[test]
fn lent_buffers_of_every_length() {
    let cases: [(Rearranging, &[u8], &[u8]); 2] = [
        (trace_to_columns, &TWO_STEPS, &TWO_STEPS_BY_COLUMN),
        (columns_to_trace, &TWO_STEPS_BY_COLUMN, &TWO_STEPS),
    ];
    for (call, bytes, expected) in cases {
        for length in 0..expected.len() + 4 {
            let mut out = vec![JUNK; length];
            let answer = call(bytes, &mut out);
            if length < expected.len() {
                assert_eq!(answer, Written { number: 15, bytes: 0 });
                assert_eq!(out, vec![JUNK; length]);
            } else {
                assert_eq!(answer, Written { number: 0, bytes: expected.len() as u64 });
                assert_eq!(out[..expected.len()], *expected);
                assert!(out[expected.len()..].iter().all(|&byte| byte == JUNK));
            }
        }
        // 17 and 18 come before 15.
        let number = call(&bytes[..bytes.len() - 1], &mut []).number;
        assert!(number == 17 || number == 18, "{number}");
    }
}

/// The trace of an advance, which must answer this number.
fn advanced(file: &[u8], run: &mut [u8], t: u64, bag: &[u8], room: usize, number: u64) -> Vec<u8> {
    let mut trace = vec![JUNK; room];
    let answer = common::advance(file, run, t, bag, &mut trace);
    assert_eq!(answer.number, number);
    trace.truncate(answer.trace_bytes as usize);
    trace
}

#[test]
fn joined_traces_of_the_worked_example() {
    let file = cue_source(0, 1).file();
    let mut run = started(&file);
    let mut joined = Vec::new();
    for (t, room, number, length) in
        [(25, 100, 0, 15), (25, 100, 11, 0), (50, 14, 15, 0), (50, 15, 15, 15), (50, 100, 0, 30)]
    {
        let trace = advanced(&file, &mut run, t, &[], room, number);
        assert_eq!(trace.len(), length);
        joined.extend(trace);
        assert_trace(&joined);
    }
    let moments = there(&joined).1[4..36].chunks(8).map(|bytes| bytes[0]).collect::<Vec<u8>>();
    assert_eq!(moments, [20, 30, 40, 50]);
    // A run that is started again tells of the same moments again.
    let again = advanced(&file, &mut started(&file), 50, &[], 100, 0);
    assert_trace(&again);
    assert_eq!(there(&[joined, again].concat()).0, 17);
}

#[test]
fn traces_joined_over_an_endless_instant() {
    let file = relayed_hold(2, 0).file();
    let mut run = started(&file);
    let first = advanced(&file, &mut run, 10, &bag(&[(1, JAM)]), 100, 13);
    let then = advanced(&file, &mut run, 13, &bag(&[(0, 7)]), 100, 0);
    let last = advanced(&file, &mut run, 20, &[], 100, 0);
    assert_eq!([first.len(), then.len(), last.len()], [15, 0, 15]);
    assert_trace(&[first, then, last].concat());
}
