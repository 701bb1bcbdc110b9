//! Ways to spoil a trace, each by one of the reasons for 17, and columns, each by one of the reasons for 18.

use super::rearranging::Way;
use crate::random::Random;
use reference::columns;
use reference::limits::HIGHEST_PORT;
use reference::little_endian::u16_at;
use reference::records::Message;
use reference::trace::{self, Record};

/// One way to spoil the bytes of records. It answers them, or none where that can't be done with these.
pub struct Damage {
    pub name: &'static str,
    pub way: Way,
    apply: Apply,
}

type SpoilRecords = fn(&mut Random, &mut Vec<Record>) -> Option<()>;
type SpoilBytes = fn(&mut Random, &[Record], &mut Vec<u8>) -> Option<()>;

#[derive(Clone, Copy)]
enum Apply {
    /// The records are spoilt, and then written in this form as they are.
    Records(SpoilRecords),
    /// The form itself is spoilt.
    Bytes(SpoilBytes),
}

impl Damage {
    pub fn apply(&self, random: &mut Random, records: &[Record]) -> Option<Vec<u8>> {
        let encode = match self.way {
            Way::There => trace::encode,
            Way::Back => columns::encode,
        };
        match self.apply {
            Apply::Records(spoil) => {
                let mut records = records.to_vec();
                spoil(random, &mut records)?;
                Some(encode(&records))
            }
            Apply::Bytes(spoil) => {
                let mut bytes = encode(records);
                spoil(random, records, &mut bytes)?;
                Some(bytes)
            }
        }
    }
}

/// Every kind of damage, of records in either form and of each form.
pub fn all() -> impl Iterator<Item = Damage> {
    let of_records = OF_RECORDS.into_iter().flat_map(|(names, spoil)| {
        let apply = Apply::Records(spoil);
        [Way::There, Way::Back].into_iter().zip(names).map(move |(way, name)| Damage {
            name,
            way,
            apply,
        })
    });
    let of_trace = OF_TRACE.into_iter().map(|(name, spoil)| Damage {
        name,
        way: Way::There,
        apply: Apply::Bytes(spoil),
    });
    let of_columns = OF_COLUMNS.into_iter().map(|(name, spoil)| Damage {
        name,
        way: Way::Back,
        apply: Apply::Bytes(spoil),
    });
    of_records.chain(of_trace).chain(of_columns)
}

/// By the name in a trace and the name in columns.
const OF_RECORDS: [([&str; 2], SpoilRecords); 11] = [
    (["17: record without messages", "18: record without messages"], |random, records| {
        any(random, records)?.messages.clear();
        Some(())
    }),
    (["17: pair repeated", "18: pair repeated"], |random, records| {
        let [first, second] = neighbours(random, records)?;
        (second.moment, second.step) = first.pair();
        Some(())
    }),
    (["17: step falls", "18: step falls"], |random, records| {
        let [first, second] = neighbours(random, records)?;
        second.moment = first.moment;
        second.step = random.between(0, first.step.checked_sub(1)?.into()) as u16;
        Some(())
    }),
    (["17: moment falls, step rises", "18: moment falls, step rises"], |random, records| {
        let [first, second] = neighbours(random, records)?;
        second.moment = lower(random, first.moment)?;
        second.step = first.step.checked_add(1)?;
        Some(())
    }),
    (["17: moment falls, same step", "18: moment falls, same step"], |random, records| {
        let [first, second] = neighbours(random, records)?;
        (second.moment, second.step) = (lower(random, first.moment)?, first.step);
        Some(())
    }),
    (
        ["17: moment falls by a higher byte alone", "18: moment falls by a higher byte alone"],
        |random, records| {
            let [first, second] = neighbours(random, records)?;
            first.moment = (first.moment | 256) & !255;
            (second.moment, second.step) = (first.moment - 1, first.step);
            records.truncate(2);
            Some(())
        },
    ),
    (["17: messages fall by port", "18: messages fall by port"], |random, records| {
        swap(random, records, |two| two[0].port < two[1].port)
    }),
    (["17: messages fall by value", "18: messages fall by value"], |random, records| {
        swap(random, records, |two| two[0].port == two[1].port && two[0].value < two[1].value)
    }),
    (
        ["17: value falls by its high byte alone", "18: value falls by its high byte alone"],
        |random, records| {
            let messages = &mut any(random, records)?.messages;
            let port = messages.last()?.port;
            let value = 256 * random.between(1, 255) as u16;
            messages.retain(|message| message.port < port);
            messages.extend([value, value - 1].map(|value| Message { port, value }));
            Some(())
        },
    ),
    (["17: port 4", "18: port 4"], |random, records| {
        any(random, records)?.messages.last_mut()?.port = HIGHEST_PORT + 1;
        Some(())
    }),
    (["17: port above 4", "18: port above 4"], |random, records| {
        let port = random.pick(&[5, 128, 255]);
        let value = any(random, records)?.messages.first()?.value;
        any(random, records)?.messages = vec![Message { port, value }];
        Some(())
    }),
];

fn any<'r>(random: &mut Random, records: &'r mut [Record]) -> Option<&'r mut Record> {
    let at = (!records.is_empty()).then(|| random.index(records.len()))?;
    records.get_mut(at)
}

/// Two records in turn; the records before them are dropped, so that what is changed in the first does
/// not spoil anything there.
fn neighbours<'r>(
    random: &mut Random,
    records: &'r mut Vec<Record>,
) -> Option<&'r mut [Record; 2]> {
    let first = random.index(records.len().checked_sub(1).filter(|&pairs| pairs > 0)?);
    records.drain(..first);
    records.first_chunk_mut()
}

fn lower(random: &mut Random, moment: u64) -> Option<u64> {
    let highest = moment.checked_sub(1)?;
    Some(if random.percent(50) { highest } else { random.between(0, highest) })
}

/// Exchanges two messages in turn of which this holds.
fn swap(random: &mut Random, records: &mut [Record], suits: fn(&[Message]) -> bool) -> Option<()> {
    let messages = &mut any(random, records)?.messages;
    let places: Vec<usize> = messages
        .windows(2)
        .enumerate()
        .filter(|(_, two)| suits(two))
        .map(|(place, _)| place)
        .collect();
    let place = (!places.is_empty()).then(|| random.pick(&places))?;
    messages.swap(place, place + 1);
    Some(())
}

/// The bytes of the last record.
fn last_length(records: &[Record]) -> Option<usize> {
    Some(trace::HEAD_BYTES + Message::BYTES * records.last()?.messages.len())
}

const OF_TRACE: [(&str, SpoilBytes); 7] = [
    ("17: cut in a record's head", |random, records, bytes| {
        let whole = bytes.len() - last_length(records)?;
        bytes.truncate(whole + random.between(1, 11) as usize);
        Some(())
    }),
    ("17: cut in a record's messages", |random, records, bytes| {
        let length = last_length(records)?;
        let left = random.between(trace::HEAD_BYTES as u64, length as u64 - 1) as usize;
        bytes.truncate(bytes.len() - length + left);
        Some(())
    }),
    ("17: one byte cut off", |_, _, bytes| bytes.pop().map(|_| ())),
    ("17: bytes left over", |random, _, bytes| {
        let length = random.between(1, 11) as usize;
        bytes.extend(random.bytes(length));
        Some(())
    }),
    ("17: message count one too large", |_, records, bytes| {
        change_last_count(records, bytes, |count| count.checked_add(1))
    }),
    ("17: message count one too small", |_, records, bytes| {
        change_last_count(records, bytes, |count| count.checked_sub(1))
    }),
    ("17: the same trace twice in turn", |_, records, bytes| {
        bytes.extend_from_within(..);
        (!records.is_empty()).then_some(())
    }),
];

fn change_last_count(
    records: &[Record],
    bytes: &mut [u8],
    change: fn(u16) -> Option<u16>,
) -> Option<()> {
    let at = bytes.len() - last_length(records)? + 10;
    let count = change(records.last()?.message_count())?;
    bytes[at..at + 2].copy_from_slice(&count.to_le_bytes());
    Some(())
}

const OF_COLUMNS: [(&str, SpoilBytes); 15] = [
    ("18: under four bytes", |random, _, bytes| {
        bytes.truncate(random.index(columns::HEAD_BYTES));
        Some(())
    }),
    ("18: one byte cut off", |_, _, bytes| bytes.pop().map(|_| ())),
    ("18: cut in the moments", |random, records, bytes| cut(random, records, bytes, 0)),
    ("18: cut in the steps", |random, records, bytes| cut(random, records, bytes, 1)),
    ("18: cut in the message counts", |random, records, bytes| cut(random, records, bytes, 2)),
    ("18: cut in the ports", |random, records, bytes| cut(random, records, bytes, 3)),
    ("18: cut in the values", |random, records, bytes| cut(random, records, bytes, 4)),
    ("18: bytes left over", |random, _, bytes| {
        let length = random.pick(&[1, 2, 3, 12, 15]);
        bytes.extend(random.bytes(length));
        Some(())
    }),
    ("18: record count one too large", |_, records, bytes| {
        put_count(bytes, records.len() as u32 + 1)
    }),
    ("18: record count one too small", |_, records, bytes| {
        put_count(bytes, (records.len() as u32).checked_sub(1)?)
    }),
    ("18: record count right in two bytes only", |_, records, bytes| {
        put_count(bytes, records.len() as u32 + 65_536)
    }),
    ("18: record count 4,294,967,295", |_, _, bytes| put_count(bytes, u32::MAX)),
    ("18: no record, and columns left over", |_, records, bytes| {
        put_count(bytes, 0)?;
        (!records.is_empty()).then_some(())
    }),
    ("18: message count one too large", |random, records, bytes| {
        change_count(random, records, bytes, |count| count.checked_add(1))
    }),
    ("18: message count one too small", |random, records, bytes| {
        change_count(random, records, bytes, |count| count.checked_sub(1))
    }),
];

/// Where the record count and each column end.
fn ends(records: &[Record]) -> [usize; 6] {
    let messages: usize = records.iter().map(|record| record.messages.len()).sum();
    let heads = columns::HEAD_BYTES + 12 * records.len();
    let [moments, steps] = [8, 10].map(|bytes| columns::HEAD_BYTES + bytes * records.len());
    [columns::HEAD_BYTES, moments, steps, heads, heads + messages, heads + 3 * messages]
}

/// Cuts a column before its last byte, or in front of it.
fn cut(random: &mut Random, records: &[Record], bytes: &mut Vec<u8>, column: usize) -> Option<()> {
    let ends = ends(records);
    let (begin, end) = (ends[column], ends[column + 1]);
    bytes.truncate(begin + (begin < end).then(|| random.index(end - begin))?);
    Some(())
}

/// Changes the record count. None where other columns of the same length begin to tell of as many records,
/// which may be: a few small values are then taken for message counts.
fn put_count(bytes: &mut [u8], count: u32) -> Option<()> {
    bytes[..columns::HEAD_BYTES].copy_from_slice(&count.to_le_bytes());
    let [counts, messages] =
        [10, 12].map(|of_record| columns::HEAD_BYTES + of_record * count as usize);
    let told = bytes.get(counts..messages).map(|counts| {
        let counts = counts.chunks_exact(2).map(|count| usize::from(u16_at(count, 0)));
        messages + Message::BYTES * counts.sum::<usize>()
    });
    (told != Some(bytes.len())).then_some(())
}

fn change_count(
    random: &mut Random,
    records: &[Record],
    bytes: &mut [u8],
    change: fn(u16) -> Option<u16>,
) -> Option<()> {
    let record = (!records.is_empty()).then(|| random.index(records.len()))?;
    let at = ends(records)[2] + 2 * record;
    let count = change(records[record].message_count())?;
    bytes[at..at + 2].copy_from_slice(&count.to_le_bytes());
    Some(())
}
