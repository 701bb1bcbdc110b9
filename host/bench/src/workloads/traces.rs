//! Traces to rearrange: made-up ones whose records all have as many messages, and one that a run has written.

use super::stations;
use crate::engine::Functions;
use reference::builder::bag;
use reference::records::Message;
use reference::trace::{self, Record};
use reference::{limits, saved_run};

/// About so many bytes have the made-up traces: more than the caches next to a processor hold.
const LONG: usize = 4 << 20;
const DAY: u64 = 24 * 60 * 60 * 1_000;

/// A trace by its name, made when it is wanted.
pub struct Named {
    pub name: &'static str,
    messages: Messages,
}

enum Messages {
    /// So many in each record, and about so many bytes of records.
    Each(usize, usize),
    OfADay,
}

pub const ALL: [Named; 9] = [
    Named { name: "columns, one record", messages: Messages::Each(1, 1) },
    Named { name: "columns, 1 message", messages: Messages::Each(1, LONG) },
    Named { name: "columns, 4 messages", messages: Messages::Each(4, LONG) },
    Named { name: "columns, 16 messages", messages: Messages::Each(16, LONG) },
    Named { name: "columns, 24 messages", messages: Messages::Each(24, LONG) },
    Named { name: "columns, 256 messages", messages: Messages::Each(256, LONG) },
    Named { name: "columns, 4,096 messages", messages: Messages::Each(4_096, LONG) },
    Named { name: "columns, 65,535 messages", messages: Messages::Each(65_535, LONG) },
    Named { name: "columns, day of a chain", messages: Messages::OfADay },
];

impl Named {
    pub fn trace(&self, engine: &Functions) -> Vec<u8> {
        match self.messages {
            Messages::Each(messages, bytes) => made_up(messages, bytes),
            Messages::OfADay => of_days(engine, 1),
        }
    }
}

/// Numbers that look random and are the same in every run.
fn next(state: &mut u64) -> u64 {
    *state = state.wrapping_mul(6_364_136_223_846_793_005).wrapping_add(1_442_695_040_888_963_407);
    *state >> 33
}

/// Records with so many messages each, a few steps of each moment, until they have so many bytes.
fn made_up(messages: usize, bytes: usize) -> Vec<u8> {
    let mut state = 1;
    let length = trace::HEAD_BYTES + Message::BYTES * messages;
    let mut record = |number: u64| {
        let mut messages: Vec<Message> = (0..messages)
            .map(|_| Message {
                port: next(&mut state) as u8 & limits::HIGHEST_PORT,
                value: next(&mut state) as u16,
            })
            .collect();
        messages.sort_unstable();
        Record { moment: number / 3 * 40, step: (number % 3) as u16, messages }
    };
    let records: Vec<Record> = (0..bytes.div_ceil(length) as u64).map(&mut record).collect();
    trace::encode(&records)
}

/// What a chain of 15 stations writes in so many days. It is called for each cue; cues come every two to ten
/// seconds, and the traces of the calls are joined.
pub fn of_days(engine: &Functions, days: u64) -> Vec<u8> {
    let model = stations::chain_for_cues(15).file();
    let mut run = vec![0; saved_run::length(limits::COMPONENTS)];
    (engine.start)(&model, &mut run);
    let mut state = 1;
    let mut joined = Vec::new();
    let mut trace = vec![0; 1 << 16];
    let mut t = 0;
    while t < days * DAY {
        t += 2_000 + next(&mut state) % 8_000;
        let cue = bag(&[(0, stations::CUE)]);
        let answer = (engine.advance)(&model, &mut run, t, &cue, &mut trace, &mut []);
        assert_eq!(answer.number, 0, "a trace of one cue is short");
        joined.extend(&trace[..answer.trace_bytes as usize]);
    }
    joined
}
