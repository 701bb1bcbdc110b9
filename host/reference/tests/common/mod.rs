//! What the tests share: a call made on the nest, on the nest with dead ways kept where that is
//! possible, on the flat form, and on the flat machine, with the same outcome on all of them.
#![allow(dead_code)]

use reference::advance::Lent;
use reference::builder::Builder;
use reference::decode::decode;
use reference::feed;
use reference::lit_rules;
use reference::model::Model;
use reference::nest::DeadWays;
use reference::observed::Observed;
use reference::records::Message;
use reference::saved_run::{self, SavedRun};
use reference::{flat_machine, routes, Advanced, Fed, Reading};

/// The byte that lent buffers are filled with beforehand.
pub const JUNK: u8 = 0xA5;

pub fn flat(file: &[u8]) -> Vec<u8> {
    let mut out = vec![JUNK; 40_000];
    let answer = reference::flatten(file, &mut out);
    assert_eq!(answer.number, 0);
    let length = answer.bytes as usize;
    assert!(out[length..].iter().all(|&byte| byte == JUNK));
    out.truncate(length);
    out
}

/// A run buffer with a started run and some bytes beyond it.
pub fn started(file: &[u8]) -> Vec<u8> {
    let atomics = decode(file).expect("an accepted model").atomics().len();
    let length = saved_run::length(atomics);
    let mut run = vec![JUNK; length + 5];
    let answer = reference::start(file, &mut run);
    assert_eq!((answer.number, answer.bytes), (0, length as u64));
    assert_eq!(run[length..], [JUNK; 5]);
    run
}

pub fn advance(file: &[u8], run: &mut [u8], t: u64, bag: &[u8], trace: &mut [u8]) -> Advanced {
    advance_observed(file, run, t, bag, trace).0
}

pub fn advance_observed(
    file: &[u8],
    run: &mut [u8],
    t: u64,
    bag: &[u8],
    trace: &mut [u8],
) -> (Advanced, Observed) {
    let atomics = decode(file).expect("an accepted model").atomics().len();
    let mut rules = vec![JUNK; lit_rules::length(atomics) + 1];
    advance_lighting(file, run, t, bag, trace, &mut rules)
}

/// The same with a table of rules.
pub fn advance_lighting(
    file: &[u8],
    run: &mut [u8],
    t: u64,
    bag: &[u8],
    trace: &mut [u8],
    rules: &mut [u8],
) -> (Advanced, Observed) {
    let model = decode(file).expect("an accepted model");
    let flat = flat(file);
    let literal = literal(&model);
    let mut observed = Observed::default();
    let mut others = [(); 3].map(|()| (run.to_vec(), trace.to_vec(), rules.to_vec()));
    let lent = Lent { trace, rules };
    let answer =
        reference::advance::advance(file, run, t, bag, lent, DeadWays::Dropped, &mut observed);
    let [kept, on_flat, machine] = &mut others;
    let lent = Lent { trace: &mut kept.1, rules: &mut kept.2 };
    let not_observed = &mut Observed::default();
    let answers = [
        reference::advance::advance(file, &mut kept.0, t, bag, lent, literal, not_observed),
        reference::advance(&flat, &mut on_flat.0, t, bag, &mut on_flat.1, &mut on_flat.2),
        flat_machine::advance(&flat, &mut machine.0, t, bag, &mut machine.1, &mut machine.2),
    ];
    assert_eq!(answers, [answer; 3]);
    for other in &others {
        assert!(other.0 == run, "the run buffers differ");
        assert!(other.1 == trace, "the traces differ");
        assert!(other.2 == rules, "the tables of rules differ");
    }
    (answer, observed)
}

/// Dead ways are kept as document 001 has it, where the ways are few enough.
fn literal(model: &Model) -> DeadWays {
    let few_ways = routes::ports_passed(model) < 10_000;
    if few_ways {
        DeadWays::Kept
    } else {
        DeadWays::Dropped
    }
}

pub fn advance_feed(file: &[u8], run: &mut [u8], end: u64, feed: &[u8], trace: &mut [u8]) -> Fed {
    let literal = literal(&decode(file).expect("an accepted model"));
    let flat = flat(file);
    let mut others = [(); 3].map(|()| (run.to_vec(), trace.to_vec()));
    let answer = reference::advance_feed(file, run, end, feed, trace);
    let [kept, on_flat, machine] = &mut others;
    let mut call = |run: &mut [u8], t: u64, bag: &[u8], trace: &mut [u8]| {
        let lent = Lent { trace, rules: &mut [] };
        reference::advance::advance(file, run, t, bag, lent, literal, &mut Observed::default())
    };
    let answers = [
        feed::run_by(&mut call, file, &mut kept.0, end, feed, &mut kept.1),
        reference::advance_feed(&flat, &mut on_flat.0, end, feed, &mut on_flat.1),
        flat_machine::advance_feed(&flat, &mut machine.0, end, feed, &mut machine.1),
    ];
    assert_eq!(answers, [answer; 3]);
    for other in &others {
        assert!(other.0 == run, "the run buffers differ");
        assert!(other.1 == trace, "the traces differ");
    }
    answer
}

pub fn read(file: &[u8], run: &[u8], position: u64) -> Reading {
    let reading = reference::read(file, run, position);
    assert_eq!(flat_machine::read(&flat(file), run, position), reading);
    reading
}

/// Phase and last moment of each atomic, and the open moment before them.
pub fn standing(file: &[u8], run: &[u8]) -> (u64, Vec<(u8, u64)>) {
    let saved = SavedRun::read_fitting(&decode(file).unwrap(), run).expect("a fitting run");
    (saved.open, saved.atomics.iter().map(|atomic| (atomic.phase, atomic.last)).collect())
}

/// The records of a trace: moment, step, and pairs of port and value.
pub type Record = (u64, u16, Vec<(u8, u16)>);

pub fn records(trace: &[u8]) -> Vec<Record> {
    let mut rest = trace;
    let mut records = Vec::new();
    while !rest.is_empty() {
        let moment = u64::from_le_bytes(rest[..8].try_into().unwrap());
        let step = u16::from_le_bytes(rest[8..10].try_into().unwrap());
        let count = usize::from(u16::from_le_bytes(rest[10..12].try_into().unwrap()));
        let (messages, after) = rest[12..].split_at(3 * count);
        let messages = messages.chunks_exact(3).map(Message::read);
        records.push((moment, step, messages.map(|m| (m.port, m.value)).collect()));
        rest = after;
    }
    records
}

/// What one advance call on a started model gives.
pub struct Outcome {
    pub answer: (u64, u64, u64, u64),
    pub records: Vec<Record>,
    pub open: u64,
    pub atomics: Vec<(u8, u64)>,
    pub observed: Observed,
}

/// Starts a model and advances it once, with a trace of the given length.
pub fn run_with(model: &Builder, t: u64, bag: &[u8], trace_length: usize) -> Outcome {
    let file = model.file();
    let mut run = started(&file);
    let mut trace = vec![JUNK; trace_length];
    let (answer, observed) = advance_observed(&file, &mut run, t, bag, &mut trace);
    let length = answer.trace_bytes as usize;
    assert!(trace[length..].iter().all(|&byte| byte == JUNK), "bytes past the length stay");
    let (open, atomics) = standing(&file, &run);
    Outcome {
        answer: (answer.number, answer.instants, answer.steps, answer.trace_bytes),
        records: records(&trace[..length]),
        open,
        atomics,
        observed,
    }
}

pub fn run(model: &Builder, t: u64, bag: &[u8]) -> Outcome {
    run_with(model, t, bag, 16_384)
}

pub fn check(model: &Builder) -> u64 {
    reference::check_model(&model.file())
}
