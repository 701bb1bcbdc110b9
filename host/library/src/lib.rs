//! The proved static library through its C interface: the functions on models and on traces, with the
//! answers that the second implementation has too. Empty without the feature `linked`.
//!
//! Each call is sound because a slice is a pointer valid for its length and never null, and because
//! a mutable slice overlaps no other: this is all that the header asks.
#![cfg(feature = "linked")]

use reference::engine::{Functions, Rearranging};
use reference::limits::CHANNELS;
use reference::{Advanced, Asked, Channels, Fed, Place, Reading, Written};

/// The library as an engine.
pub const FUNCTIONS: Functions =
    Functions { check_model, start, advance, advance_feed, advance_channels, read, flatten };
pub const REARRANGING: Rearranging = Rearranging { trace_to_columns, columns_to_trace };

#[repr(C)]
struct PdevsWritten {
    number: u64,
    bytes: u64,
}

#[repr(C)]
#[derive(Clone, Copy)]
struct PdevsAdvanced {
    number: u64,
    instants: u64,
    steps: u64,
    trace_bytes: u64,
}

#[repr(C)]
struct PdevsFed {
    number: u64,
    bags: u64,
    instants: u64,
    steps: u64,
    trace_bytes: u64,
}

#[repr(C)]
#[derive(Clone, Copy)]
struct PdevsPlace {
    start: u64,
    length: u64,
}

#[repr(C)]
struct PdevsPlaces {
    channel: [PdevsPlace; CHANNELS],
}

#[repr(C)]
struct PdevsChannels {
    number: u64,
    channel: [PdevsAdvanced; CHANNELS],
}

#[repr(C)]
struct PdevsReading {
    number: u64,
    phase: u64,
    last: u64,
    next_due: u64,
}

extern "C" {
    fn pdevs_check_model(model: *const u8, model_len: usize) -> u64;
    fn pdevs_start(
        model: *const u8,
        model_len: usize,
        run: *mut u8,
        run_len: usize,
    ) -> PdevsWritten;
    fn pdevs_advance(
        model: *const u8,
        model_len: usize,
        run: *mut u8,
        run_len: usize,
        t: u64,
        bag: *const u8,
        bag_len: usize,
        trace: *mut u8,
        trace_len: usize,
        rules: *mut u8,
        rules_len: usize,
    ) -> PdevsAdvanced;
    fn pdevs_advance_feed(
        model: *const u8,
        model_len: usize,
        run: *mut u8,
        run_len: usize,
        end: u64,
        feed: *const u8,
        feed_len: usize,
        trace: *mut u8,
        trace_len: usize,
    ) -> PdevsFed;
    fn pdevs_advance_channels(
        model: *const u8,
        model_len: usize,
        runs: *mut u8,
        runs_len: usize,
        count: u64,
        t: u64,
        allowance: u64,
        bags: *const u8,
        bags_len: usize,
        places: PdevsPlaces,
        traces: *mut u8,
        traces_len: usize,
    ) -> PdevsChannels;
    fn pdevs_read(
        model: *const u8,
        model_len: usize,
        run: *const u8,
        run_len: usize,
        position: u64,
    ) -> PdevsReading;
    fn pdevs_flatten(
        model: *const u8,
        model_len: usize,
        out: *mut u8,
        out_len: usize,
    ) -> PdevsWritten;
    fn pdevs_trace_to_columns(
        trace: *const u8,
        trace_len: usize,
        out: *mut u8,
        out_len: usize,
    ) -> PdevsWritten;
    fn pdevs_columns_to_trace(
        columns: *const u8,
        columns_len: usize,
        out: *mut u8,
        out_len: usize,
    ) -> PdevsWritten;
}

impl From<PdevsWritten> for Written {
    fn from(answer: PdevsWritten) -> Written {
        Written { number: answer.number, bytes: answer.bytes }
    }
}

impl From<PdevsAdvanced> for Advanced {
    fn from(answer: PdevsAdvanced) -> Advanced {
        let PdevsAdvanced { number, instants, steps, trace_bytes } = answer;
        Advanced { number, instants, steps, trace_bytes }
    }
}

impl From<Place> for PdevsPlace {
    fn from(place: Place) -> PdevsPlace {
        PdevsPlace { start: place.start, length: place.length }
    }
}

pub fn check_model(model: &[u8]) -> u64 {
    unsafe { pdevs_check_model(model.as_ptr(), model.len()) }
}

pub fn start(model: &[u8], run: &mut [u8]) -> Written {
    unsafe { pdevs_start(model.as_ptr(), model.len(), run.as_mut_ptr(), run.len()) }.into()
}

pub fn advance(
    model: &[u8],
    run: &mut [u8],
    t: u64,
    bag: &[u8],
    trace: &mut [u8],
    rules: &mut [u8],
) -> Advanced {
    unsafe {
        pdevs_advance(
            model.as_ptr(),
            model.len(),
            run.as_mut_ptr(),
            run.len(),
            t,
            bag.as_ptr(),
            bag.len(),
            trace.as_mut_ptr(),
            trace.len(),
            rules.as_mut_ptr(),
            rules.len(),
        )
    }
    .into()
}

pub fn advance_feed(model: &[u8], run: &mut [u8], end: u64, feed: &[u8], trace: &mut [u8]) -> Fed {
    let answer = unsafe {
        pdevs_advance_feed(
            model.as_ptr(),
            model.len(),
            run.as_mut_ptr(),
            run.len(),
            end,
            feed.as_ptr(),
            feed.len(),
            trace.as_mut_ptr(),
            trace.len(),
        )
    };
    Fed {
        number: answer.number,
        bags: answer.bags,
        instants: answer.instants,
        steps: answer.steps,
        trace_bytes: answer.trace_bytes,
    }
}

pub fn advance_channels(
    model: &[u8],
    runs: &mut [u8],
    asked: &Asked,
    traces: &mut [u8],
) -> Channels {
    let answer = unsafe {
        pdevs_advance_channels(
            model.as_ptr(),
            model.len(),
            runs.as_mut_ptr(),
            runs.len(),
            asked.count,
            asked.t,
            asked.allowance,
            asked.bags.as_ptr(),
            asked.bags.len(),
            PdevsPlaces { channel: asked.places.map(PdevsPlace::from) },
            traces.as_mut_ptr(),
            traces.len(),
        )
    };
    Channels { number: answer.number, channels: answer.channel.map(Advanced::from) }
}

pub fn read(model: &[u8], run: &[u8], position: u64) -> Reading {
    let answer =
        unsafe { pdevs_read(model.as_ptr(), model.len(), run.as_ptr(), run.len(), position) };
    Reading {
        number: answer.number,
        phase: answer.phase,
        last: answer.last,
        next_due: answer.next_due,
    }
}

pub fn flatten(model: &[u8], out: &mut [u8]) -> Written {
    unsafe { pdevs_flatten(model.as_ptr(), model.len(), out.as_mut_ptr(), out.len()) }.into()
}

pub fn trace_to_columns(trace: &[u8], out: &mut [u8]) -> Written {
    unsafe { pdevs_trace_to_columns(trace.as_ptr(), trace.len(), out.as_mut_ptr(), out.len()) }
        .into()
}

pub fn columns_to_trace(columns: &[u8], out: &mut [u8]) -> Written {
    unsafe { pdevs_columns_to_trace(columns.as_ptr(), columns.len(), out.as_mut_ptr(), out.len()) }
        .into()
}
