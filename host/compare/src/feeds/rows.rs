//! Feeds on small models, each with the outcome that it must have.

use super::arguments::Plan;
use super::in_turn::Fact;
use crate::call::{Answer, Call};
use crate::comparison::{CallList, Compared, Comparison};
use crate::random::Random;
use reference::builder::{bag, phase, Builder};
use reference::examples::{cue_source, endless, relayed_hold, CUE, JAM};
use reference::feed::FeedBag;
use reference::limits::HIGHEST_TIME;
use reference::little_endian::u64_at;
use reference::records::Message;
use reference::saved_run;
use reference::trace;
use reference::Fed;

/// A bag by its moment and its messages.
pub type Given = (u64, &'static [(u8, u16)]);

/// A feed that is run from a start.
struct Row {
    name: &'static str,
    model: fn() -> Builder,
    bags: &'static [Given],
    end: u64,
    trace_length: usize,
    /// Number, bags, instants, steps and trace bytes.
    fed: [u64; 5],
    /// The moments of the records.
    records: &'static [u64],
    open: u64,
}

const ON_THE_CUE_SOURCE: Row = Row {
    name: "",
    model: || cue_source(0, 1),
    bags: &[],
    end: 30,
    trace_length: 100,
    fed: [0; 5],
    records: &[],
    open: 31,
};

const ROWS: [Row; 22] = [
    Row { name: "feed of no bag", fed: [0, 0, 3, 6, 30], records: &[20, 30], ..ON_THE_CUE_SOURCE },
    Row { name: "feed of no bag to the open moment", end: 0, open: 1, ..ON_THE_CUE_SOURCE },
    Row {
        name: "feed to its last bag",
        bags: &[(10, &[]), (20, &[]), (30, &[])],
        fed: [0, 3, 3, 6, 30],
        records: &[20, 30],
        ..ON_THE_CUE_SOURCE
    },
    Row {
        name: "feed past its last bag",
        bags: &[(10, &[]), (25, &[(0, 5)])],
        fed: [0, 2, 4, 7, 30],
        records: &[20, 30],
        ..ON_THE_CUE_SOURCE
    },
    Row {
        name: "feed one past its last bag",
        bags: &[(29, &[])],
        fed: [0, 1, 3, 6, 30],
        records: &[20, 30],
        ..ON_THE_CUE_SOURCE
    },
    Row {
        name: "feed from the open moment on, moment by moment",
        bags: &[(0, &[(3, 1)]), (1, &[(0, 7); 16]), (2, &[]), (3, &[(1, 65_535)])],
        end: 4,
        fed: [0, 4, 3, 3, 0],
        open: 5,
        ..ON_THE_CUE_SOURCE
    },
    Row {
        name: "feed of bags without messages where nothing is due",
        bags: &[(1, &[]), (2, &[]), (4, &[])],
        end: 9,
        trace_length: 0,
        fed: [0, 3, 0, 0, 0],
        open: 10,
        ..ON_THE_CUE_SOURCE
    },
    Row {
        name: "feed with bags far apart, to the highest moment",
        model: || relayed_hold(8, 0),
        bags: &[(5_000_000_000, &[(0, CUE)]), (HIGHEST_TIME - 3, &[(0, CUE)])],
        end: HIGHEST_TIME,
        fed: [0, 2, 5, 5, 30],
        records: &[9, 5_000_000_005],
        open: HIGHEST_TIME + 1,
        ..ON_THE_CUE_SOURCE
    },
    Row {
        name: "feed on a model without atomics",
        model: Builder::new,
        bags: &[(3, &[(0, 7)])],
        fed: [0, 1, 1, 1, 0],
        ..ON_THE_CUE_SOURCE
    },
    Row {
        name: "feed with a trace just long enough",
        bags: &[(10, &[]), (25, &[(0, 5)])],
        trace_length: 30,
        fed: [0, 2, 4, 7, 30],
        records: &[20, 30],
        ..ON_THE_CUE_SOURCE
    },
    Row {
        name: "feed stopped by 15 at the first bag",
        bags: &[(20, &[(0, 5)]), (30, &[])],
        trace_length: 0,
        fed: [15, 0, 1, 2, 0],
        open: 11,
        ..ON_THE_CUE_SOURCE
    },
    Row {
        name: "feed stopped by 15 in the first instant of a later bag",
        bags: &[(10, &[(0, 5)]), (25, &[(0, 5)])],
        trace_length: 14,
        fed: [15, 1, 1, 2, 0],
        open: 11,
        ..ON_THE_CUE_SOURCE
    },
    Row {
        name: "feed stopped by 15 at a later bag, after instants",
        bags: &[(10, &[]), (30, &[(0, 5)])],
        trace_length: 29,
        fed: [15, 1, 2, 4, 15],
        records: &[20],
        open: 21,
        ..ON_THE_CUE_SOURCE
    },
    Row {
        name: "feed stopped by 15 with no byte left",
        bags: &[(20, &[]), (21, &[]), (30, &[]), (35, &[])],
        end: 40,
        trace_length: 15,
        fed: [15, 2, 2, 4, 15],
        records: &[20],
        open: 22,
        ..ON_THE_CUE_SOURCE
    },
    Row {
        name: "feed stopped by 15 on the way to the end",
        bags: &[(10, &[]), (25, &[(0, 5)])],
        trace_length: 29,
        fed: [15, 2, 3, 5, 15],
        records: &[20],
        open: 26,
        ..ON_THE_CUE_SOURCE
    },
    Row {
        name: "feed of no bag stopped by 15",
        trace_length: 15,
        fed: [15, 0, 2, 4, 15],
        records: &[20],
        open: 21,
        ..ON_THE_CUE_SOURCE
    },
    Row {
        name: "feed stopped by 13 at the first bag",
        model: endless,
        bags: &[(0, &[]), (7, &[])],
        fed: [13, 0, 0, 0, 0],
        open: 0,
        ..ON_THE_CUE_SOURCE
    },
    Row {
        name: "feed stopped by 13 at a later bag",
        model: || relayed_hold(3, 1),
        bags: &[(2, &[]), (6, &[(1, JAM)]), (8, &[]), (30, &[])],
        fed: [13, 1, 1, 1, 0],
        open: 5,
        ..ON_THE_CUE_SOURCE
    },
    Row {
        name: "feed stopped by 13 after records",
        model: || relayed_hold(1, 0),
        bags: &[(9, &[]), (10, &[(0, CUE)]), (20, &[(1, JAM)]), (21, &[])],
        fed: [13, 2, 4, 4, 30],
        records: &[9, 15],
        open: 16,
        ..ON_THE_CUE_SOURCE
    },
    Row {
        name: "feed stopped by 13 on the way to the end",
        model: || jams_at(7),
        bags: &[(3, &[]), (5, &[(0, 1)])],
        fed: [13, 2, 1, 1, 0],
        open: 6,
        ..ON_THE_CUE_SOURCE
    },
    Row {
        name: "feed that ends before the model jams",
        model: || jams_at(7),
        bags: &[(3, &[]), (5, &[(0, 1)])],
        end: 6,
        fed: [0, 2, 1, 1, 0],
        open: 7,
        ..ON_THE_CUE_SOURCE
    },
    Row {
        name: "feed of no bag stopped by 13",
        model: || jams_at(7),
        fed: [13, 0, 0, 0, 0],
        open: 0,
        ..ON_THE_CUE_SOURCE
    },
];

/// One atomic whose instant at a moment never ends.
fn jams_at(moment: u32) -> Builder {
    let mut model = Builder::new();
    model.atomic(0, &[phase(moment, 1, &[]), phase(0, 1, &[])]);
    model
}

pub fn names() -> impl Iterator<Item = &'static str> {
    ROWS.iter().map(|row| row.name)
}

pub fn bags_of(given: &[Given]) -> Vec<FeedBag> {
    let messages = |given: &[(u8, u16)]| bag(given).chunks(3).map(Message::read).collect();
    given.iter().map(|&(moment, given)| FeedBag { moment, messages: messages(given) }).collect()
}

/// A list of calls on a model, which is started and advanced until this moment is open.
pub fn list_from<'c>(
    comparison: &'c mut Comparison,
    random: &mut Random,
    model: &Builder,
    open: u64,
) -> Compared<CallList<'c>> {
    let length = saved_run::length(model.model().atomics().len());
    let beyond = random.index(4);
    let mut list = comparison.list(&model.file(), &random.bytes(length + beyond));
    list.call(&Call::Start)?;
    if let Some(t) = open.checked_sub(1) {
        let none = Vec::new;
        list.call(&Call::Advance { t, bag: none(), trace: none(), rules: none() })?;
    }
    Ok(list)
}

/// Every row, and its calls in turn.
pub fn all(comparison: &mut Comparison, random: &mut Random) -> Compared<()> {
    for row in &ROWS {
        run_row(comparison, random, row).map_err(|fault| format!("{}, {fault}", row.name))?;
        comparison.counts.meet(row.name);
    }
    Ok(())
}

fn run_row(comparison: &mut Comparison, random: &mut Random, row: &Row) -> Compared<()> {
    let mut list = list_from(comparison, random, &(row.model)(), 0)?;
    let plan = Plan { bags: bags_of(row.bags), end: row.end };
    let (end, feed) = (plan.end, plan.feed());
    let call = Call::Feed { end, feed, trace: random.bytes(row.trace_length) };
    let (outcome, fact) = Fact::of(&mut list, plan, &call)?;
    let [number, bags, instants, steps, trace_bytes] = row.fed;
    let expected = Answer::Fed(Fed { number, bags, instants, steps, trace_bytes });
    if outcome.answer != expected {
        return Err(format!("answers {:?}, not {expected:?}", outcome.answer));
    }
    let records = trace::read_records(outcome.records()).ok_or("records that are cut")?;
    let moments: Vec<u64> = records.iter().map(|record| record.moment).collect();
    let open = u64_at(list.run(), 0);
    if moments != row.records || open != row.open {
        return Err(format!("records of {moments:?} and the open moment {open}"));
    }
    fact.holds_in_turn(comparison)
}
