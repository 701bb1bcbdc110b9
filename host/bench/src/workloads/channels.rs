//! Calls on as many channels as there may be, idle and with a bag for each; and one channel with an instant that its
//! steps do not suffice for.

use super::{calls, Advance};
use reference::builder::{bag, phase, Builder, NEVER};
use reference::examples::{zero_stay_counter, Counting};
use reference::limits::{CHANNELS, STEPS_OF_A_CHANNEL};

/// So many channels of a model from its start, all with the moments and bags of these calls.
pub struct Together {
    pub name: &'static str,
    pub model: Builder,
    pub count: usize,
    pub calls: Vec<Advance>,
    pub allowance: u64,
    /// What every channel answers to every call.
    pub number: u64,
}

impl Together {
    fn eight(name: &'static str, model: Builder, calls: Vec<Advance>) -> Together {
        let allowance = CHANNELS as u64 * STEPS_OF_A_CHANNEL;
        Together { name, model, count: CHANNELS, calls, allowance, number: 0 }
    }
}

pub fn all() -> Vec<Together> {
    vec![
        Together::eight("channels, small, idle", calls::small(), calls::idle_calls(100)),
        Together::eight("channels, small, one bag", calls::small(), calls::bag_calls(100)),
        Together::eight("channels, maximal, idle", calls::maximal(), calls::idle_calls(10)),
        Together::eight("channels, maximal, one bag", calls::maximal(), calls::bag_calls(10)),
    ]
}

/// An instant of one step and one of 1,024, by a channel that has steps for the first alone, for both, and that is
/// not given the bag for the second.
pub fn undone() -> [Together; 3] {
    let mut model = zero_stay_counter(Counting { by_bag: true, cycle: 30, rounds: 33, tail: 32 });
    model.atomic(0, &[phase(1, 1, &[]), phase(NEVER, 1, &[])]);
    let of = |name, given: &[(u8, u16)], allowance, number| Together {
        name,
        model: model.clone(),
        count: 1,
        calls: vec![Advance { t: 2, bag: bag(given) }],
        allowance,
        number,
    };
    [
        of("channels, 1 step", &[], 1_024, 0),
        of("channels, 1 and 1,024", &[(0, 5)], 1_025, 0),
        of("channels, 1,024 undone", &[(0, 5)], 1_024, 22),
    ]
}
