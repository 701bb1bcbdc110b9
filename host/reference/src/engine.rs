//! An engine as its functions, seven on models and two on traces, and engines that are made of plain ones.

use crate::{flat_machine, Advanced, Asked, Channels, Fed, Reading, Written};

pub trait Engine {
    fn check_model(&self, model: &[u8]) -> u64;
    fn start(&self, model: &[u8], run: &mut [u8]) -> Written;
    fn advance(
        &self,
        model: &[u8],
        run: &mut [u8],
        t: u64,
        bag: &[u8],
        trace: &mut [u8],
        rules: &mut [u8],
    ) -> Advanced;
    fn advance_feed(
        &self,
        model: &[u8],
        run: &mut [u8],
        end: u64,
        feed: &[u8],
        trace: &mut [u8],
    ) -> Fed;
    fn advance_channels(
        &self,
        model: &[u8],
        runs: &mut [u8],
        asked: &Asked,
        traces: &mut [u8],
    ) -> Channels;
    fn read(&self, model: &[u8], run: &[u8], position: u64) -> Reading;
    fn flatten(&self, model: &[u8], out: &mut [u8]) -> Written;
}

/// The functions that rearrange a trace. They take no model, so that nest and flat form are nothing to them.
pub trait Rearranger {
    fn trace_to_columns(&self, trace: &[u8], out: &mut [u8]) -> Written;
    fn columns_to_trace(&self, columns: &[u8], out: &mut [u8]) -> Written;
}

type Advancing = fn(&[u8], &mut [u8], u64, &[u8], &mut [u8], &mut [u8]) -> Advanced;
type Feeding = fn(&[u8], &mut [u8], u64, &[u8], &mut [u8]) -> Fed;
type Channelling = fn(&[u8], &mut [u8], &Asked, &mut [u8]) -> Channels;

/// The functions of one engine on models.
pub struct Functions {
    pub check_model: fn(&[u8]) -> u64,
    pub start: fn(&[u8], &mut [u8]) -> Written,
    pub advance: Advancing,
    pub advance_feed: Feeding,
    pub advance_channels: Channelling,
    pub read: fn(&[u8], &[u8], u64) -> Reading,
    pub flatten: fn(&[u8], &mut [u8]) -> Written,
}

/// The functions of one engine on traces.
pub struct Rearranging {
    pub trace_to_columns: fn(&[u8], &mut [u8]) -> Written,
    pub columns_to_trace: fn(&[u8], &mut [u8]) -> Written,
}

/// The nest, messages that die on their way dropped.
pub const NEST: Functions = Functions {
    check_model: crate::check_model,
    start: crate::start,
    advance: crate::advance,
    advance_feed: crate::advance_feed,
    advance_channels: crate::advance_channels,
    read: crate::read,
    flatten: crate::flatten,
};

/// The papers give the flat machine no model check and no flattening of its own.
pub const FLAT_MACHINE: Functions = Functions {
    start: flat_machine::start,
    advance: flat_machine::advance,
    advance_feed: flat_machine::advance_feed,
    advance_channels: flat_machine::advance_channels,
    read: flat_machine::read,
    ..NEST
};

impl Engine for Functions {
    fn check_model(&self, model: &[u8]) -> u64 {
        (self.check_model)(model)
    }

    fn start(&self, model: &[u8], run: &mut [u8]) -> Written {
        (self.start)(model, run)
    }

    fn advance(
        &self,
        model: &[u8],
        run: &mut [u8],
        t: u64,
        bag: &[u8],
        trace: &mut [u8],
        rules: &mut [u8],
    ) -> Advanced {
        (self.advance)(model, run, t, bag, trace, rules)
    }

    fn advance_feed(
        &self,
        model: &[u8],
        run: &mut [u8],
        end: u64,
        feed: &[u8],
        trace: &mut [u8],
    ) -> Fed {
        (self.advance_feed)(model, run, end, feed, trace)
    }

    fn advance_channels(
        &self,
        model: &[u8],
        runs: &mut [u8],
        asked: &Asked,
        traces: &mut [u8],
    ) -> Channels {
        (self.advance_channels)(model, runs, asked, traces)
    }

    fn read(&self, model: &[u8], run: &[u8], position: u64) -> Reading {
        (self.read)(model, run, position)
    }

    fn flatten(&self, model: &[u8], out: &mut [u8]) -> Written {
        (self.flatten)(model, out)
    }
}

impl Rearranger for Rearranging {
    fn trace_to_columns(&self, trace: &[u8], out: &mut [u8]) -> Written {
        (self.trace_to_columns)(trace, out)
    }

    fn columns_to_trace(&self, columns: &[u8], out: &mut [u8]) -> Written {
        (self.columns_to_trace)(columns, out)
    }
}
