//! Messages as keys, port times 65,536 and the value, put one after the other into a lent buffer.
//! The port is that of the end where the message arrives. A buffer has room for 16 messages a route.

use super::model_file::slot_key;
use super::unchecked::{at, put, u16_at};
use reference::records::{Message, Phase};

/// Puts what a phase record puts out on a port.
#[inline(always)]
pub fn put_sent(
    phases: &[u8],
    record: usize,
    port: u32,
    own: u32,
    bag: &mut [u32],
    mut length: usize,
) -> usize {
    let place = Phase::BYTES * record;
    for slot in 0..usize::from(at(phases, place + 5)) {
        let key = slot_key(phases, place + 6 + Message::BYTES * slot);
        if key >> 16 == port {
            put(bag, length, own | (key & 0xFFFF));
            length += 1;
        }
    }
    length
}

/// Puts what is given at an input port of the root.
#[inline(always)]
pub fn put_given(given: &[u8], port: u8, own: u32, bag: &mut [u32], mut length: usize) -> usize {
    for message in given.chunks_exact(Message::BYTES) {
        if message[0] == port {
            put(bag, length, own | u32::from(u16_at(message, 1)));
            length += 1;
        }
    }
    length
}
