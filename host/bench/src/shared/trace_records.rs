//! Trace records: put where they fit, and counted in any case.

use super::unchecked::{at, put, put_bytes};
use reference::records::Message;
use reference::trace::HEAD_BYTES;

/// Puts the record of a step, if it has messages, into a buffer of which so much is used.
#[inline(always)]
pub fn put_step(out: &mut [u8], used: usize, moment: u64, step: u64, keys: &[u32]) -> usize {
    if keys.is_empty() {
        return used;
    }
    let end = used + HEAD_BYTES + Message::BYTES * keys.len();
    if end <= out.len() {
        put_bytes(out, used, moment.to_le_bytes());
        put_bytes(out, used + 8, (step as u16).to_le_bytes());
        put_bytes(out, used + 10, (keys.len() as u16).to_le_bytes());
        let mut place = used + HEAD_BYTES;
        for number in 0..keys.len() {
            let key = at(keys, number);
            put(out, place, (key >> 16) as u8);
            put_bytes(out, place + 1, (key as u16).to_le_bytes());
            place += Message::BYTES;
        }
    }
    end
}
