//! A trace stored by column: the record count (4 bytes), all moments, all steps, all message counts, all
//! ports, all values.

use crate::answers::{Written, NOT_A_TRACE, NOT_COLUMNS};
use crate::little_endian::{u16_at, u32_at, u64_at};
use crate::records::Message;
use crate::trace::{self, Record};

/// The bytes of the record count, by which columns are longer than their trace.
pub const HEAD_BYTES: usize = 4;

/// Rearranges a trace into columns.
pub fn trace_to_columns(trace: &[u8], out: &mut [u8]) -> Written {
    match trace::read_records(trace).filter(|records| trace::is_trace(records)) {
        Some(records) => Written::at_the_front(out, &encode(&records)),
        None => Written::refused(NOT_A_TRACE),
    }
}

/// Gives the trace back. Columns come from a trace where the records that they tell are one, and where they
/// are the columns of these records and not more.
pub fn columns_to_trace(columns: &[u8], out: &mut [u8]) -> Written {
    let come_from = |records: &Vec<Record>| trace::is_trace(records) && encode(records) == columns;
    match read_records(columns).filter(come_from) {
        Some(records) => Written::at_the_front(out, &trace::encode(&records)),
        None => Written::refused(NOT_COLUMNS),
    }
}

/// The columns of records.
pub fn encode(records: &[Record]) -> Vec<u8> {
    let count = u32::try_from(records.len()).expect("a trace has 4,294,967,295 records at most");
    let messages = || records.iter().flat_map(|record| &record.messages);
    let mut out = count.to_le_bytes().to_vec();
    records.iter().for_each(|record| out.extend(record.moment.to_le_bytes()));
    records.iter().for_each(|record| out.extend(record.step.to_le_bytes()));
    records.iter().for_each(|record| out.extend(record.message_count().to_le_bytes()));
    messages().for_each(|message| out.push(message.port));
    messages().for_each(|message| out.extend(message.value.to_le_bytes()));
    out
}

/// The records that columns tell; none where a column is cut. What follows the values is not looked at.
pub fn read_records(columns: &[u8]) -> Option<Vec<Record>> {
    let (head, rest) = columns.split_at_checked(HEAD_BYTES)?;
    let count = u32_at(head, 0) as usize;
    let (moments, rest) = rest.split_at_checked(8 * count)?;
    let (steps, rest) = rest.split_at_checked(2 * count)?;
    let (message_counts, rest) = rest.split_at_checked(2 * count)?;
    let message_count = |record: usize| usize::from(u16_at(message_counts, 2 * record));
    let all_messages = (0..count).map(message_count).sum();
    let (ports, values) = rest.split_at_checked(all_messages)?;
    let values = values.get(..2 * all_messages)?;
    let message = |place: usize| Message { port: ports[place], value: u16_at(values, 2 * place) };
    let mut places = 0..all_messages;
    let record = |record: usize| Record {
        moment: u64_at(moments, 8 * record),
        step: u16_at(steps, 2 * record),
        messages: places.by_ref().take(message_count(record)).map(message).collect(),
    };
    Some((0..count).map(record).collect())
}
