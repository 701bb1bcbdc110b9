//! Wrong rearrangements of a trace, made of the reference: what passes for a trace, the bytes of the columns,
//! and what becomes of the lent buffer.

mod told;

use crate::columns::rearranging::Way;
use crate::engine::Rearranger;
use reference::columns::{encode, read_records, HEAD_BYTES};
use reference::limits::{HIGHEST_PORT, HIGHEST_TIME, ROOT_BAG, STEPS_OF_AN_INSTANT};
use reference::records::Message;
use reference::trace::{self, Record};
use reference::Written;

#[derive(Clone, Copy, Debug, PartialEq, Eq)]
pub enum Wrong {
    Nothing,
    EmptyRecordAllowed,
    ZeroCountAllowedInColumns,
    PairsMayRepeat,
    StepsMayFall,
    StepBeforeMoment,
    OneRecordAMoment,
    StepsBeginAt0,
    PairsOfColumnsUnjudged,
    MessagesMayFall,
    ValuesMayFall,
    EqualMessagesRefused,
    MessagesRiseThroughRecords,
    MessagesOfColumnsUnjudged,
    OnlyTheLastOfMany,
    Port4Allowed,
    PortsOfColumnsUnjudged,
    ComparedFromTheLowByte,
    MomentsHaveASign,
    LimitOfMoments,
    LimitOfSteps,
    LimitOfMessages,
    EmptyTraceRefused,
    CutRecordDropped,
    LeftOverAllowed,
    UnderFourBytesAreNoRecord,
    BufferBeforeTheTrace,
    BufferBeforeTheColumns,
    NumberOfTheOtherWay,
    CountsBeforeSteps,
    MessagesKeptWhole,
    HighByteFirst,
    RecordCountOfTwoBytes,
    OneByteMoreNeeded,
    WritesWhatFits,
    WritesBeforeItJudges,
    ClearsTheRest,
    TellsTheLengthWith15,
}

/// From so many messages on an engine may judge several at once.
const MANY: usize = 16;

impl Wrong {
    fn is_pair_in_turn(self, way: Way, first: &Record, second: &Record) -> bool {
        let (before, after) = (first.pair(), second.pair());
        let rises = before < after;
        match self {
            Wrong::PairsMayRepeat => before <= after,
            Wrong::StepsMayFall => rises || (before.0 == after.0 && before.1 != after.1),
            Wrong::StepBeforeMoment => (before.1, before.0) < (after.1, after.0),
            Wrong::OneRecordAMoment => before.0 < after.0,
            Wrong::StepsBeginAt0 => rises && (before.0 == after.0 || after.1 == 0),
            Wrong::PairsOfColumnsUnjudged => rises || way == Way::Back,
            Wrong::ComparedFromTheLowByte => {
                let bytes = |(moment, step): (u64, u16)| (moment.to_le_bytes(), step.to_le_bytes());
                bytes(before) < bytes(after)
            }
            Wrong::MomentsHaveASign => (before.0 as i64, before.1) < (after.0 as i64, after.1),
            _ => rises,
        }
    }

    fn is_message_in_turn(self, way: Way, first: Message, second: Message) -> bool {
        match self {
            Wrong::MessagesMayFall => true,
            Wrong::MessagesOfColumnsUnjudged => way == Way::Back || first <= second,
            Wrong::ValuesMayFall => first.port <= second.port,
            Wrong::EqualMessagesRefused => first < second,
            Wrong::ComparedFromTheLowByte => {
                let bytes = |message: Message| (message.port, message.value.to_le_bytes());
                bytes(first) <= bytes(second)
            }
            _ => first <= second,
        }
    }

    fn is_record(self, way: Way, record: &Record) -> bool {
        let highest_port = match self {
            Wrong::Port4Allowed => HIGHEST_PORT + 1,
            Wrong::PortsOfColumnsUnjudged if way == Way::Back => u8::MAX,
            _ => HIGHEST_PORT,
        };
        let may_be_empty = self == Wrong::EmptyRecordAllowed
            || self == Wrong::ZeroCountAllowedInColumns && way == Way::Back;
        let in_turn = |two: &[Message]| self.is_message_in_turn(way, two[0], two[1]);
        let is_many = way == Way::Back && record.messages.len() >= MANY;
        let passed_over = match self {
            Wrong::OnlyTheLastOfMany if is_many => record.messages.len() - 2,
            _ => 0,
        };
        let allowed = match self {
            Wrong::LimitOfMoments => record.moment <= HIGHEST_TIME,
            Wrong::LimitOfSteps => u64::from(record.step) < STEPS_OF_AN_INSTANT,
            Wrong::LimitOfMessages => record.messages.len() <= ROOT_BAG,
            _ => true,
        };
        allowed
            && (may_be_empty || !record.messages.is_empty())
            && record.messages.iter().all(|message| message.port <= highest_port)
            && record.messages.windows(2).skip(passed_over).all(in_turn)
    }

    /// Whether records pass for a trace that goes this way.
    fn is_trace(self, way: Way, records: &[Record]) -> bool {
        let begins = match (self, records.first()) {
            (Wrong::EmptyTraceRefused, first) => first.is_some(),
            (Wrong::StepsBeginAt0, Some(first)) => first.step == 0,
            _ => true,
        };
        let through_records = |two: &[Record]| {
            self != Wrong::MessagesRiseThroughRecords
                || two[0].messages.last() <= two[1].messages.first()
        };
        begins
            && records.iter().all(|record| self.is_record(way, record))
            && records.windows(2).all(|two| self.is_pair_in_turn(way, &two[0], &two[1]))
            && records.windows(2).all(through_records)
    }

    /// The records of a trace; none where one is cut.
    fn read_trace(self, trace: &[u8]) -> Option<Vec<Record>> {
        let mut lengths = (0..=trace.len()).rev();
        match self {
            Wrong::CutRecordDropped => {
                lengths.find_map(|length| trace::read_records(&trace[..length]))
            }
            _ => trace::read_records(trace),
        }
    }

    /// The records of columns; none where they are not whole, or not all.
    fn read_columns(self, columns: &[u8]) -> Option<Vec<Record>> {
        if self == Wrong::UnderFourBytesAreNoRecord && columns.len() < HEAD_BYTES {
            return Some(Vec::new());
        }
        let columns = match self {
            Wrong::CountsBeforeSteps => steps_and_counts_exchanged(columns),
            _ => columns.to_vec(),
        };
        read_records(&columns).filter(|records| {
            let told = encode(records);
            told == columns || self == Wrong::LeftOverAllowed && columns.starts_with(&told)
        })
    }

    fn columns_of(self, records: &[Record]) -> Vec<u8> {
        let mut columns = encode(records);
        let heads = HEAD_BYTES + 12 * records.len();
        match self {
            Wrong::CountsBeforeSteps => columns = steps_and_counts_exchanged(&columns),
            Wrong::RecordCountOfTwoBytes => columns[2..4].fill(0),
            Wrong::HighByteFirst => {
                let moments = &mut columns[HEAD_BYTES..HEAD_BYTES + 8 * records.len()];
                moments.chunks_exact_mut(8).for_each(|moment| moment.reverse());
            }
            Wrong::MessagesKeptWhole => {
                columns.truncate(heads);
                let messages = records.iter().flat_map(|record| &record.messages);
                messages.for_each(|message| message.write(&mut columns));
            }
            _ => {}
        }
        columns
    }

    /// Writes what it has made of so many bytes, if anything, into the lent buffer.
    fn answer(self, way: Way, length: usize, made: Option<Vec<u8>>, out: &mut [u8]) -> Written {
        let is_short = out.len() < way.length(length);
        let buffer_first = self == Wrong::BufferBeforeTheTrace
            || self == Wrong::BufferBeforeTheColumns && way == Way::Back;
        if is_short && buffer_first {
            return Written::refused(15);
        }
        let Some(bytes) = made else {
            if self == Wrong::WritesBeforeItJudges && !is_short {
                out.fill(0);
            }
            let is_other = self == Wrong::NumberOfTheOtherWay;
            return Written::refused(if is_other { 17 } else { way.refusal() });
        };
        if self == Wrong::OneByteMoreNeeded && out.len() <= bytes.len() {
            return Written::refused(15);
        }
        let mut written = Written::at_the_front(out, &bytes);
        match (self, written.number) {
            (Wrong::WritesWhatFits, 15) => out.copy_from_slice(&bytes[..out.len()]),
            (Wrong::TellsTheLengthWith15, 15) => written.bytes = bytes.len() as u64,
            (Wrong::ClearsTheRest, 0) => out[bytes.len()..].fill(0),
            _ => {}
        }
        written
    }
}

/// Columns with the steps and the message counts at each other's place, where there are so many bytes.
fn steps_and_counts_exchanged(columns: &[u8]) -> Vec<u8> {
    let mut exchanged = columns.to_vec();
    if let Some((count, rest)) = exchanged.split_first_chunk_mut() {
        let records = u32::from_le_bytes(*count) as usize;
        if let Some(both) = rest.get_mut(8 * records..12 * records) {
            both.rotate_left(2 * records);
        }
    }
    exchanged
}

impl Rearranger for Wrong {
    fn trace_to_columns(&self, trace: &[u8], out: &mut [u8]) -> Written {
        let records = self.read_trace(trace);
        let passed = records.filter(|records| self.is_trace(Way::There, records));
        let made = passed.map(|records| self.columns_of(&records));
        self.answer(Way::There, trace.len(), made, out)
    }

    fn columns_to_trace(&self, columns: &[u8], out: &mut [u8]) -> Written {
        let records = self.read_columns(columns);
        let passed = records.filter(|records| self.is_trace(Way::Back, records));
        let made = passed.map(|records| trace::encode(&records));
        self.answer(Way::Back, columns.len(), made, out)
    }
}
