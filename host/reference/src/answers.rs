//! What the calls answer: the numbers of the papers' table, and one struct for each kind of call.

use crate::limits::CHANNELS;

pub const SUCCESS: u64 = 0;
pub const CUT_OFF: u64 = 1;
pub const LEFT_OVER: u64 = 2;
pub const COUNT_LIMIT: u64 = 3;
pub const BAD_COMPONENT: u64 = 4;
pub const PHASE_SUM: u64 = 5;
pub const BAD_PHASE: u64 = 6;
pub const BAD_RULE: u64 = 7;
pub const BAD_COUPLING: u64 = 8;
pub const TOO_MANY_ROUTES: u64 = 9;
pub const RUN_DOES_NOT_FIT: u64 = 10;
pub const BAD_TIME: u64 = 11;
pub const BAD_BAG: u64 = 12;
pub const STILL_DUE: u64 = 13;
// 14 is retired: no call answers it, and it is not to be given again.
pub const BUFFER_TOO_SHORT: u64 = 15;
pub const BAD_POSITION: u64 = 16;
pub const NOT_A_TRACE: u64 = 17;
pub const NOT_COLUMNS: u64 = 18;
pub const BAD_FEED: u64 = 19;
pub const BAD_FIFTH_SECTION: u64 = 20;
pub const BAD_CHANNELS: u64 = 21;
pub const OUT_OF_STEPS: u64 = 22;

/// What the writers of one buffer answer: start, flattening, and rearranging a trace.
#[derive(Clone, Copy, Debug, PartialEq, Eq)]
pub struct Written {
    pub number: u64,
    pub bytes: u64,
}

/// What advance answers.
#[derive(Clone, Copy, Debug, PartialEq, Eq)]
pub struct Advanced {
    pub number: u64,
    pub instants: u64,
    pub steps: u64,
    pub trace_bytes: u64,
}

/// What running a feed answers: how many bags' own calls succeeded, and the counts of all calls added up.
#[derive(Clone, Copy, Debug, PartialEq, Eq)]
pub struct Fed {
    pub number: u64,
    pub bags: u64,
    pub instants: u64,
    pub steps: u64,
    pub trace_bytes: u64,
}

/// What a call on several channels answers: its own number, and what each channel's advance came to. Entries of
/// channels that are not there are zeros.
#[derive(Clone, Copy, Debug, PartialEq, Eq)]
pub struct Channels {
    pub number: u64,
    pub channels: [Advanced; CHANNELS],
}

/// What reading answers.
#[derive(Clone, Copy, Debug, PartialEq, Eq)]
pub struct Reading {
    pub number: u64,
    pub phase: u64,
    pub last: u64,
    pub next_due: u64,
}

impl Written {
    pub fn refused(number: u64) -> Written {
        Written { number, bytes: 0 }
    }

    /// Writes all of it over the front of a lent buffer, or nothing where that is too short.
    pub fn at_the_front(buffer: &mut [u8], bytes: &[u8]) -> Written {
        if buffer.len() < bytes.len() {
            return Written::refused(BUFFER_TOO_SHORT);
        }
        buffer[..bytes.len()].copy_from_slice(bytes);
        Written { number: SUCCESS, bytes: bytes.len() as u64 }
    }
}

impl Advanced {
    pub fn refused(number: u64) -> Advanced {
        Advanced { number, instants: 0, steps: 0, trace_bytes: 0 }
    }
}

impl Fed {
    pub fn refused(number: u64) -> Fed {
        Fed { number, bags: 0, instants: 0, steps: 0, trace_bytes: 0 }
    }
}

impl Channels {
    pub fn refused(number: u64) -> Channels {
        Channels { number, channels: [Advanced::refused(SUCCESS); CHANNELS] }
    }
}

impl Reading {
    pub fn refused(number: u64) -> Reading {
        Reading { number, phase: 0, last: 0, next_due: 0 }
    }
}
