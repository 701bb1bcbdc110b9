//! A second implementation of the timing engine, written from the papers alone: Parallel DEVS models
//! run by tables. It is literal and slow, and is there to be compared with.
//!
//! `check_model`, `start`, `advance`, `read` and `flatten` work on the nest: each coupled component is
//! a coordinator that acts as the resultant of its children. `flat_machine` holds a machine of its own
//! for flat forms. `advance_feed` makes the advance calls of a feed, on either. `advance_channels` advances
//! several runs of one model together. `trace_to_columns` and `columns_to_trace` rearrange traces and take
//! no model. Every function takes whole buffers and answers the numbers of the papers' table.

pub mod advance;
pub mod answers;
pub mod atomic;
pub mod builder;
pub mod channels;
pub mod checks;
pub mod columns;
pub mod decode;
pub mod engine;
pub mod examples;
pub mod feed;
pub mod flat_machine;
pub mod flatten;
pub mod limits;
pub mod lit_rules;
pub mod little_endian;
pub mod model;
pub mod nest;
pub mod observed;
pub mod range_ends;
pub mod ranges;
pub mod records;
pub mod resultant;
pub mod root_coordinator;
pub mod routes;
pub mod saved_run;
pub mod trace;

pub use advance::read;
pub use answers::{Advanced, Channels, Fed, Reading, Written};
pub use channels::{Asked, Place, Places};
pub use columns::{columns_to_trace, trace_to_columns};
pub use flatten::flatten;
pub use saved_run::start;

use advance::Lent;
use nest::DeadWays;
use observed::Observed;

/// The number by which a model file is refused, or 0.
pub fn check_model(model: &[u8]) -> u64 {
    decode::decode(model).err().unwrap_or(answers::SUCCESS)
}

/// Advances a run to the moment t, with the bag given there, and lights what decided in the last instant.
pub fn advance(
    model: &[u8],
    run: &mut [u8],
    t: u64,
    bag: &[u8],
    trace: &mut [u8],
    rules: &mut [u8],
) -> Advanced {
    let lent = Lent { trace, rules };
    advance::advance(model, run, t, bag, lent, DeadWays::Dropped, &mut Observed::default())
}

/// Runs a feed to an end moment, by its advance calls; none of them has a table of rules.
pub fn advance_feed(model: &[u8], run: &mut [u8], end: u64, feed: &[u8], trace: &mut [u8]) -> Fed {
    let mut make_call = |run: &mut [u8], t: u64, bag: &[u8], trace: &mut [u8]| {
        advance(model, run, t, bag, trace, &mut [])
    };
    feed::run_by(&mut make_call, model, run, end, feed, trace)
}

/// Advances several runs of one model, each in its part of a buffer, to one moment under one allowance of steps.
pub fn advance_channels(
    model: &[u8],
    runs: &mut [u8],
    asked: &Asked,
    traces: &mut [u8],
) -> Channels {
    let observed = &mut Observed::default();
    channels::advance_channels(model, runs, asked, traces, DeadWays::Dropped, observed)
}
