//! The rows [A] to [H] of the papers' worked table, with their values, on every engine.

use crate::call::{Answer, Call};
use crate::comparison::{CallList, Compared, Comparison};
use reference::builder::{bag, Builder};
use reference::examples::{cue_source, endless};
use reference::limits::NO_RULE;
use reference::little_endian::u64_at;
use reference::saved_run;
use reference::trace::HEAD_BYTES;
use reference::Advanced;

/// What a row of the table says: the answer of the last call, and the open moment.
struct Row {
    name: &'static str,
    model: Builder,
    /// The moments and bags of the advance calls after a start.
    calls: Vec<(u64, Vec<u8>)>,
    trace_length: usize,
    number: u64,
    instants: u64,
    steps: u64,
    /// The moments of the records; each has the one message (1, 8) in step 0.
    records: Vec<u64>,
    open: u64,
    /// The rules lit for the two atomics; none where the table stays as it was.
    lit: Option<[u16; 2]>,
}

impl Row {
    fn new(name: &'static str, model: Builder) -> Row {
        Row {
            name,
            model,
            calls: vec![(30, Vec::new())],
            trace_length: 16_384,
            number: 0,
            instants: 3,
            steps: 6,
            records: vec![20, 30],
            open: 31,
            lit: Some([NO_RULE, 1]),
        }
    }
}

/// The lent table of rules, with room for two atomics.
const FIRST_RULES: [u8; 5] = [0xA5; 5];

fn rows() -> Vec<Row> {
    let cues = || cue_source(0, 1);
    let none = Vec::new;
    vec![
        Row::new("[A]", cues()),
        Row { records: vec![20], ..Row::new("[B]", cue_source(1, 1)) },
        Row {
            trace_length: 14,
            number: 15,
            instants: 1,
            steps: 2,
            records: vec![],
            open: 11,
            ..Row::new("[C]", cues())
        },
        Row {
            trace_length: 15,
            number: 15,
            instants: 2,
            steps: 4,
            records: vec![20],
            open: 21,
            ..Row::new("[D]", cues())
        },
        Row {
            calls: vec![(0, bag(&[(0, 5)]))],
            instants: 1,
            steps: 1,
            records: vec![],
            open: 1,
            lit: Some([NO_RULE; 2]),
            ..Row::new("[E]", cues())
        },
        Row::new("[F]", cue_source(0, 2)),
        Row {
            calls: vec![(0, none())],
            number: 13,
            instants: 0,
            steps: 0,
            records: vec![],
            open: 0,
            lit: None,
            ..Row::new("[G]", endless())
        },
        Row {
            calls: vec![(30, none()), (30, none())],
            number: 11,
            instants: 0,
            steps: 0,
            records: vec![],
            lit: None,
            ..Row::new("[H]", cues())
        },
    ]
}

/// Runs the table.
pub fn compare(comparison: &mut Comparison) -> Compared<()> {
    for row in rows() {
        let file = row.model.file();
        let length = saved_run::length(row.model.model().atomics().len());
        let mut list = comparison.list(&file, &vec![0xA5; length + 3]);
        run_row(&row, &mut list).map_err(|fault| format!("row {}: {fault}", row.name))?;
    }
    Ok(())
}

fn run_row(row: &Row, list: &mut CallList) -> Compared<()> {
    list.call(&Call::Start)?;
    let started = list.run().to_vec();
    let mut outcome = None;
    for (t, bag) in &row.calls {
        let trace = vec![0xA5; row.trace_length];
        let rules = FIRST_RULES.to_vec();
        outcome = Some(list.call(&Call::Advance { t: *t, bag: bag.clone(), trace, rules })?);
    }
    let bytes = row.records.len() * (HEAD_BYTES + 3);
    let expected = Answer::Advanced(Advanced {
        number: row.number,
        instants: row.instants,
        steps: row.steps,
        trace_bytes: bytes as u64,
    });
    let outcome = outcome.expect("a row has a call");
    if outcome.answer != expected {
        return Err(format!("answers {:?}, not {expected:?}", outcome.answer));
    }
    let mut records = Vec::new();
    for moment in &row.records {
        records.extend(moment.to_le_bytes());
        records.extend([0, 0, 1, 0, 1, 8, 0]);
    }
    if outcome.trace[..bytes] != records {
        return Err("the records differ from the table".into());
    }
    let mut rules = FIRST_RULES;
    if let Some([first, second]) = row.lit {
        rules[..2].copy_from_slice(&first.to_le_bytes());
        rules[2..4].copy_from_slice(&second.to_le_bytes());
    }
    if outcome.rules != rules {
        return Err(format!("the table of rules is {:?}, not {rules:?}", outcome.rules));
    }
    if u64_at(list.run(), 0) != row.open {
        return Err(format!("the open moment is {}, not {}", u64_at(list.run(), 0), row.open));
    }
    if matches!(row.name, "[E]" | "[G]") && list.run()[8..] != started[8..] {
        return Err("the states have changed".into());
    }
    Ok(())
}
