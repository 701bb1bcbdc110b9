//! Traces by column and back, optimised and unverified: the same passes over the lent bytes as the proved
//! code has, in plain safe Rust. First a pass that judges, then one that writes; on the way back one more
//! before them, which adds up the message counts. No heap.
//!
//! `PASSES` stops at the first message that falls, as the proved code does in a row of records. `UNBROKEN`
//! judges a whole bag and tells at its end, as the proved code does in columns with many messages: without a
//! way out of the loop the compiler can judge several messages at once.

use reference::answers::{Written, BUFFER_TOO_SHORT, NOT_A_TRACE, NOT_COLUMNS, SUCCESS};
use reference::columns::HEAD_BYTES as COUNT_BYTES;
use reference::engine::Rearranging;
use reference::limits::{HIGHEST_PORT, RECORDS};
use reference::records::Message;
use reference::trace::HEAD_BYTES;
use std::mem::take;

pub const PASSES: Rearranging = Rearranging {
    trace_to_columns: trace_to_columns::<Stopping>,
    columns_to_trace: columns_to_trace::<Stopping>,
};
pub const UNBROKEN: Rearranging = Rearranging {
    trace_to_columns: trace_to_columns::<Unbroken>,
    columns_to_trace: columns_to_trace::<Unbroken>,
};

/// The keys of messages on ports that there are lie below this one.
const ABOVE_EVERY_KEY: u32 = (HIGHEST_PORT as u32 + 1) << 16;

fn number16(bytes: &[u8]) -> usize {
    usize::from(u16::from_le_bytes([bytes[0], bytes[1]]))
}

fn number64(bytes: &[u8]) -> u64 {
    u64::from_le_bytes(bytes.try_into().expect("a moment has 8 bytes"))
}

trait Judge {
    /// Whether keys never fall and have ports that there are.
    fn rise(keys: impl Iterator<Item = u32>) -> bool;
}

struct Stopping;
struct Unbroken;

impl Judge for Stopping {
    fn rise(keys: impl Iterator<Item = u32>) -> bool {
        let mut low = 0;
        for key in keys {
            if key < low || key >= ABOVE_EVERY_KEY {
                return false;
            }
            low = key;
        }
        true
    }
}

impl Judge for Unbroken {
    /// Where no key falls, the last one is the highest.
    fn rise(keys: impl Iterator<Item = u32>) -> bool {
        let (last, falls) = keys.fold((0, false), |(low, falls), key| (key, falls | (key < low)));
        !falls && last < ABOVE_EVERY_KEY
    }
}

/// How many records and messages a trace has; none where the bytes are no trace.
fn scan<J: Judge>(trace: &[u8]) -> Option<(usize, usize)> {
    let (mut records, mut messages) = (0, 0);
    let mut before = None;
    let mut rest = trace;
    while !rest.is_empty() {
        let (head, after) = rest.split_at_checked(HEAD_BYTES)?;
        let pair = (number64(&head[..8]), number16(&head[8..]));
        let count = number16(&head[10..]);
        let (bag, after) = after.split_at_checked(Message::BYTES * count)?;
        let keys = bag
            .chunks_exact(Message::BYTES)
            .map(|message| u32::from_le_bytes([message[1], message[2], message[0], 0]));
        if count == 0 || before >= Some(pair) || !J::rise(keys) {
            return None;
        }
        records += 1;
        messages += count;
        before = Some(pair);
        rest = after;
    }
    (records <= RECORDS).then_some((records, messages))
}

fn trace_to_columns<J: Judge>(trace: &[u8], out: &mut [u8]) -> Written {
    let Some((records, messages)) = scan::<J>(trace) else {
        return Written::refused(NOT_A_TRACE);
    };
    let length = COUNT_BYTES + trace.len();
    let Some(out) = out.get_mut(..length) else {
        return Written::refused(BUFFER_TOO_SHORT);
    };
    let (count, out) = out.split_at_mut(COUNT_BYTES);
    count.copy_from_slice(&(records as u32).to_le_bytes());
    let (moments, out) = out.split_at_mut(8 * records);
    let (steps, out) = out.split_at_mut(2 * records);
    let (counts, out) = out.split_at_mut(2 * records);
    let (mut ports, mut values) = out.split_at_mut(messages);
    let (moments, steps) = (moments.chunks_exact_mut(8), steps.chunks_exact_mut(2));
    let mut rest = trace;
    for ((moment, step), count) in moments.zip(steps).zip(counts.chunks_exact_mut(2)) {
        let (head, after) = rest.split_at(HEAD_BYTES);
        moment.copy_from_slice(&head[..8]);
        step.copy_from_slice(&head[8..10]);
        count.copy_from_slice(&head[10..]);
        let here = number16(count);
        let (bag, after) = after.split_at(Message::BYTES * here);
        let (own_ports, own_values);
        (own_ports, ports) = take(&mut ports).split_at_mut(here);
        (own_values, values) = take(&mut values).split_at_mut(2 * here);
        let columns = own_ports.iter_mut().zip(own_values.chunks_exact_mut(2));
        for (message, (port, value)) in bag.chunks_exact(Message::BYTES).zip(columns) {
            *port = message[0];
            value.copy_from_slice(&message[1..]);
        }
        rest = after;
    }
    Written { number: SUCCESS, bytes: length as u64 }
}

/// Columns cut into theirs, after the record count.
struct Columns<'c> {
    moments: &'c [u8],
    steps: &'c [u8],
    counts: &'c [u8],
    ports: &'c [u8],
    values: &'c [u8],
}

/// A record in its columns.
struct Record<'c> {
    moment: &'c [u8],
    step: &'c [u8],
    count: &'c [u8],
    ports: &'c [u8],
    values: &'c [u8],
}

impl<'c> Columns<'c> {
    /// None where the lengths are not those that the counts say.
    fn cut(columns: &'c [u8]) -> Option<Columns<'c>> {
        let (count, rest) = columns.split_first_chunk()?;
        let records = u32::from_le_bytes(*count) as usize;
        let (moments, rest) = rest.split_at_checked(8 * records)?;
        let (steps, rest) = rest.split_at_checked(2 * records)?;
        let (counts, rest) = rest.split_at_checked(2 * records)?;
        let messages: usize = counts.chunks_exact(2).map(number16).sum();
        if rest.len() != Message::BYTES * messages {
            return None;
        }
        let (ports, values) = rest.split_at(messages);
        Some(Columns { moments, steps, counts, ports, values })
    }

    fn records(&self) -> impl Iterator<Item = Record<'c>> {
        let (mut ports, mut values) = (self.ports, self.values);
        let (moments, steps) = (self.moments.chunks_exact(8), self.steps.chunks_exact(2));
        let heads = moments.zip(steps).zip(self.counts.chunks_exact(2));
        heads.map(move |((moment, step), count)| {
            let here = number16(count);
            let (own_ports, own_values);
            (own_ports, ports) = ports.split_at(here);
            (own_values, values) = values.split_at(2 * here);
            Record { moment, step, count, ports: own_ports, values: own_values }
        })
    }

    fn come_from_a_trace<J: Judge>(&self) -> bool {
        let mut before = None;
        for Record { moment, step, ports, values, .. } in self.records() {
            let pair = (number64(moment), number16(step));
            let messages = ports.iter().zip(values.chunks_exact(2));
            let keys =
                messages.map(|(port, value)| u32::from_le_bytes([value[0], value[1], *port, 0]));
            if ports.is_empty() || before >= Some(pair) || !J::rise(keys) {
                return false;
            }
            before = Some(pair);
        }
        true
    }
}

fn columns_to_trace<J: Judge>(columns: &[u8], out: &mut [u8]) -> Written {
    let Some(cut) = Columns::cut(columns).filter(Columns::come_from_a_trace::<J>) else {
        return Written::refused(NOT_COLUMNS);
    };
    let length = columns.len() - COUNT_BYTES;
    let Some(mut rest) = out.get_mut(..length) else {
        return Written::refused(BUFFER_TOO_SHORT);
    };
    for Record { moment, step, count, ports, values } in cut.records() {
        let (head, after) = take(&mut rest).split_at_mut(HEAD_BYTES);
        head[..8].copy_from_slice(moment);
        head[8..10].copy_from_slice(step);
        head[10..].copy_from_slice(count);
        let (bag, after) = after.split_at_mut(Message::BYTES * ports.len());
        let messages = ports.iter().zip(values.chunks_exact(2));
        for (message, (port, value)) in bag.chunks_exact_mut(Message::BYTES).zip(messages) {
            message[0] = *port;
            message[1..].copy_from_slice(value);
        }
        rest = after;
    }
    Written { number: SUCCESS, bytes: length as u64 }
}
