//! The engines that are held against each other, all behind the same functions.

use std::cell::{Cell, RefCell};

use crate::column_passes;
use reference::advance::Lent;
pub use reference::engine::{Engine, Rearranger};
use reference::engine::{FLAT_MACHINE, NEST};
use reference::feed;
use reference::nest::DeadWays;
use reference::observed::Observed;
use reference::{channels, decode, routes, Advanced, Asked, Channels, Fed, Reading, Written};

/// Which bytes an engine is fed for a model.
#[derive(Clone, Copy, Debug, PartialEq, Eq)]
pub enum Form {
    AsGiven,
    /// What flattening writes; only for accepted models.
    Flat,
}

/// An engine that the yardstick is compared with.
pub struct Subject {
    pub name: &'static str,
    pub engine: Box<dyn Engine>,
    pub form: Form,
}

/// All engines of this build.
pub fn subjects() -> Vec<Subject> {
    let subject = |name, engine, form| Subject { name, engine, form };
    vec![
        subject("nest, dead ways dropped", Box::new(NEST), Form::AsGiven),
        subject("nest on the flat form", Box::new(NEST), Form::Flat),
        subject("flat machine", Box::new(FLAT_MACHINE), Form::Flat),
        #[cfg(feature = "library")]
        subject("library", Box::new(library::FUNCTIONS), Form::AsGiven),
        #[cfg(feature = "library")]
        subject("library on the flat form", Box::new(library::FUNCTIONS), Form::Flat),
    ]
}

/// All engines of this build that rearrange traces, by name. The reference is what they are compared with.
pub fn rearrangers() -> Vec<(&'static str, Box<dyn Rearranger>)> {
    vec![
        ("passes over slices", Box::new(column_passes::PASSES)),
        ("unbroken passes", Box::new(column_passes::UNBROKEN)),
        #[cfg(feature = "library")]
        ("library", Box::new(library::REARRANGING)),
    ]
}

/// The most ports that a step may pass for dead ways to be kept; beyond it they are dropped.
const FEW_PORTS: u64 = 4_096;

/// What every subject is compared with: the nest, dead messages kept as document 001 has it wherever
/// the ways are few enough. It also notes what its calls met.
pub struct Yardstick {
    dead_ways: DeadWays,
    observed: Cell<Observed>,
    calls_of_feed: RefCell<Vec<Advanced>>,
}

impl Yardstick {
    pub fn new(model: &[u8]) -> Yardstick {
        let dead_ways = match decode::decode(model) {
            Ok(model) if routes::ports_passed(&model) <= FEW_PORTS => DeadWays::Kept,
            _ => DeadWays::Dropped,
        };
        Yardstick { dead_ways, observed: Cell::default(), calls_of_feed: RefCell::default() }
    }

    /// What was met since this was last asked.
    pub fn take_observed(&self) -> Observed {
        self.observed.take()
    }

    /// What the calls of the feeds that were run since this was last asked have answered, in turn.
    pub fn take_calls_of_feed(&self) -> Vec<Advanced> {
        self.calls_of_feed.take()
    }
}

impl Engine for Yardstick {
    fn check_model(&self, model: &[u8]) -> u64 {
        reference::check_model(model)
    }

    fn start(&self, model: &[u8], run: &mut [u8]) -> Written {
        reference::start(model, run)
    }

    fn advance(
        &self,
        model: &[u8],
        run: &mut [u8],
        t: u64,
        bag: &[u8],
        trace: &mut [u8],
        rules: &mut [u8],
    ) -> Advanced {
        let mut observed = self.observed.take();
        let lent = Lent { trace, rules };
        let answer =
            reference::advance::advance(model, run, t, bag, lent, self.dead_ways, &mut observed);
        self.observed.set(observed);
        answer
    }

    fn advance_feed(
        &self,
        model: &[u8],
        run: &mut [u8],
        end: u64,
        feed: &[u8],
        trace: &mut [u8],
    ) -> Fed {
        let mut make_call = |run: &mut [u8], t: u64, bag: &[u8], trace: &mut [u8]| {
            let answer = self.advance(model, run, t, bag, trace, &mut []);
            self.calls_of_feed.borrow_mut().push(answer);
            answer
        };
        feed::run_by(&mut make_call, model, run, end, feed, trace)
    }

    fn advance_channels(
        &self,
        model: &[u8],
        runs: &mut [u8],
        asked: &Asked,
        traces: &mut [u8],
    ) -> Channels {
        let mut observed = self.observed.take();
        let dead_ways = self.dead_ways;
        let answer =
            channels::advance_channels(model, runs, asked, traces, dead_ways, &mut observed);
        self.observed.set(observed);
        answer
    }

    fn read(&self, model: &[u8], run: &[u8], position: u64) -> Reading {
        reference::read(model, run, position)
    }

    fn flatten(&self, model: &[u8], out: &mut [u8]) -> Written {
        reference::flatten(model, out)
    }
}
