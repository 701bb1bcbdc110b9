//! What the traces that were rearranged had in them. What no reason for 17 is must be met as well as the
//! reasons are.

use reference::limits::{HIGHEST_TIME, ROOT_BAG, STEPS_OF_AN_INSTANT};
use reference::records::Message;
use reference::trace::{read_records, Record};

/// Whether some record has it, by name.
type OfRecords = (&'static str, fn(&Record) -> bool);

/// Whether two neighbours have it, by name.
type OfNeighbours = (&'static str, fn(&Record, &Record) -> bool);

const OF_RECORDS: [OfRecords; 9] = [
    ("trace: equal messages", |record| record.messages.windows(2).any(|two| two[0] == two[1])),
    ("trace: value that rises by its high byte alone", |record| {
        let rises = |first: Message, second: Message| {
            first.port == second.port && low_byte_falls(first.value.into(), second.value.into())
        };
        record.messages.windows(2).any(|two| rises(two[0], two[1]))
    }),
    ("trace: record with over 4,096 messages", |record| record.messages.len() > ROOT_BAG),
    ("trace: record with 65,535 messages", |record| record.messages.len() == 65_535),
    ("trace: step of 1,024 or more", |record| u64::from(record.step) >= STEPS_OF_AN_INSTANT),
    ("trace: step 65,535", |record| record.step == u16::MAX),
    ("trace: moment above 10^12", |record| record.moment > HIGHEST_TIME),
    ("trace: moment 2^64 − 1", |record| record.moment == u64::MAX),
    ("trace: port 3 and value 65,535", |record| {
        record.messages.last().is_some_and(|last| last.port == 3 && last.value == u16::MAX)
    }),
];

const OF_NEIGHBOURS: [OfNeighbours; 6] = [
    ("trace: two steps of a moment", |first, second| first.moment == second.moment),
    ("trace: step that rises by its high byte alone", |first, second| {
        first.moment == second.moment && low_byte_falls(first.step.into(), second.step.into())
    }),
    ("trace: same step at a later moment", |first, second| first.step == second.step),
    ("trace: lower step at a later moment", |first, second| first.step > second.step),
    ("trace: moment that rises by a higher byte alone", |first, second| {
        low_byte_falls(first.moment, second.moment)
    }),
    ("trace: messages fall from record to record", |first, second| {
        first.messages.last() > second.messages.first()
    }),
];

/// A number that rises, though its bytes read from the front fall.
fn low_byte_falls(first: u64, second: u64) -> bool {
    first < second && first as u8 > second as u8
}

fn of_records(records: &[Record]) -> impl Iterator<Item = (&'static str, u64)> + '_ {
    let lengths = [
        ("trace: empty", records.is_empty()),
        ("trace: one record", records.len() == 1),
        ("trace: several records", records.len() > 1),
        ("trace: first step above 0", records.first().is_some_and(|first| first.step > 0)),
    ];
    let single = OF_RECORDS.into_iter().map(|(name, has)| (name, records.iter().any(has)));
    let neighbours = OF_NEIGHBOURS
        .into_iter()
        .map(|(name, have)| (name, records.windows(2).any(|two| have(&two[0], &two[1]))));
    let all = lengths.into_iter().chain(single).chain(neighbours);
    all.map(|(name, met)| (name, u64::from(met)))
}

/// Every kind that is looked for, none of them met.
pub fn all() -> impl Iterator<Item = (&'static str, u64)> {
    of_records(&[]).map(|(name, _)| (name, 0))
}

/// What a trace has in it.
pub fn of_trace(trace: &[u8]) -> impl Iterator<Item = (&'static str, u64)> {
    let records = read_records(trace).expect("a trace that was accepted");
    of_records(&records).collect::<Vec<_>>().into_iter()
}
