//! Trace records, one for each step with output at the root: their byte form, and when they are a trace.

use crate::limits::{HIGHEST_PORT, RECORDS};
use crate::little_endian::{u16_at, u64_at};
use crate::records::Message;

/// The bytes of a record before its messages.
pub const HEAD_BYTES: usize = 12;

#[derive(Clone, Debug, PartialEq, Eq)]
pub struct Record {
    pub moment: u64,
    /// Its place among the steps of the instant, from 0.
    pub step: u16,
    pub messages: Vec<Message>,
}

impl Record {
    /// What a trace's records rise by, the moment first.
    pub fn pair(&self) -> (u64, u16) {
        (self.moment, self.step)
    }

    /// The number of messages as a record states it.
    pub fn message_count(&self) -> u16 {
        u16::try_from(self.messages.len()).expect("a record has 65,535 messages at most")
    }

    pub fn write(&self, out: &mut Vec<u8>) {
        out.extend(self.moment.to_le_bytes());
        out.extend(self.step.to_le_bytes());
        out.extend(self.message_count().to_le_bytes());
        self.messages.iter().for_each(|message| message.write(out));
    }

    /// The record at the front of some bytes, and the bytes after it; none where it is cut.
    fn read(bytes: &[u8]) -> Option<(Record, &[u8])> {
        let (head, rest) = bytes.split_at_checked(HEAD_BYTES)?;
        let message_bytes = Message::BYTES * usize::from(u16_at(head, 10));
        let (messages, rest) = rest.split_at_checked(message_bytes)?;
        let messages = messages.chunks_exact(Message::BYTES).map(Message::read).collect();
        Some((Record { moment: u64_at(head, 0), step: u16_at(head, 8), messages }, rest))
    }
}

/// Writes a record on; the messages are put in rising order of port, then value.
pub fn write_record(out: &mut Vec<u8>, moment: u64, step: u64, mut messages: Vec<Message>) {
    messages.sort_unstable();
    let step = u16::try_from(step).expect("steps of an instant are below 1,024");
    Record { moment, step, messages }.write(out);
}

/// The bytes of records in a row.
pub fn encode(records: &[Record]) -> Vec<u8> {
    let mut bytes = Vec::new();
    records.iter().for_each(|record| record.write(&mut bytes));
    bytes
}

/// Bytes as records in a row; none where one is cut.
pub fn read_records(bytes: &[u8]) -> Option<Vec<Record>> {
    let mut records = Vec::new();
    let mut rest = bytes;
    while !rest.is_empty() {
        let (record, after) = Record::read(rest)?;
        records.push(record);
        rest = after;
    }
    Some(records)
}

/// Whether records are a trace: none is empty, the pairs of moment and step rise strictly, the messages of
/// a record do not fall, ports are 0 to 3, and there are no more records than four bytes can count.
pub fn is_trace(records: &[Record]) -> bool {
    let none_is_empty = records.iter().all(|record| !record.messages.is_empty());
    let pairs_rise = records.windows(2).all(|two| two[0].pair() < two[1].pair());
    let none_falls = records.iter().all(|record| record.messages.is_sorted());
    let mut messages = records.iter().flat_map(|record| &record.messages);
    let ports_exist = messages.all(|message| message.port <= HIGHEST_PORT);
    none_is_empty && pairs_rise && none_falls && ports_exist && records.len() <= RECORDS
}
