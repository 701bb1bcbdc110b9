//! The calls of a list, what they answer, and making one on an engine.

use crate::engine::Engine;
use crate::lent::Lent;
use reference::{Advanced, Asked, Channels, Fed, Places, Reading, Written};
use std::fmt;

#[derive(Clone)]
pub enum Call {
    Start,
    /// With the first bytes of the lent trace and of the lent table of rules.
    Advance {
        t: u64,
        bag: Vec<u8>,
        trace: Vec<u8>,
        rules: Vec<u8>,
    },
    /// With the first bytes of the lent trace.
    Feed {
        end: u64,
        feed: Vec<u8>,
        trace: Vec<u8>,
    },
    /// On the runs that lie in parts of the run buffer, with the first bytes of the lent traces.
    Channels(OnChannels),
    Read {
        position: u64,
    },
}

/// A call on several channels.
#[derive(Clone, Debug, PartialEq, Eq)]
pub struct OnChannels {
    pub count: u64,
    pub t: u64,
    pub allowance: u64,
    pub bags: Vec<u8>,
    pub places: Places,
    pub traces: Vec<u8>,
}

impl OnChannels {
    pub fn asked(&self) -> Asked<'_> {
        let OnChannels { count, t, allowance, places, .. } = *self;
        Asked { count, t, allowance, bags: &self.bags, places }
    }
}

/// The buffers that a call lends beside the run; empty where it lends none.
pub struct LentBeside {
    pub trace: Lent,
    pub rules: Lent,
}

#[derive(Clone, Copy, Debug, PartialEq, Eq)]
pub enum Kind {
    CheckModel,
    Start,
    Advance,
    AdvanceFeed,
    AdvanceChannels,
    Read,
    Flatten,
    TraceToColumns,
    ColumnsToTrace,
}

#[derive(Clone, Copy, Debug, PartialEq, Eq)]
pub enum Answer {
    Written(Written),
    Advanced(Advanced),
    Fed(Fed),
    Channels(Channels),
    Reading(Reading),
}

impl fmt::Display for Call {
    fn fmt(&self, out: &mut fmt::Formatter) -> fmt::Result {
        match self {
            Call::Start => write!(out, "start"),
            Call::Advance { t, bag, trace, rules } => {
                let lengths = [trace.len(), rules.len()];
                write!(
                    out,
                    "advance to {t} with the bag {bag:?} and {lengths:?} bytes of trace and rules"
                )
            }
            Call::Feed { end, feed, trace } => {
                let length = trace.len();
                write!(out, "feed {feed:?} run to {end} with {length} bytes of trace")
            }
            Call::Channels(OnChannels { count, t, allowance, bags, places, traces }) => {
                let places: Vec<_> =
                    places.iter().map(|place| (place.start, place.length)).collect();
                write!(
                    out,
                    "{count} channels advanced to {t} by {allowance} steps at most with the bags {bags:?} \
                     at {places:?} and {} bytes of traces",
                    traces.len()
                )
            }
            Call::Read { position } => write!(out, "reading of position {position}"),
        }
    }
}

impl Call {
    pub fn kind(&self) -> Kind {
        match self {
            Call::Start => Kind::Start,
            Call::Advance { .. } => Kind::Advance,
            Call::Feed { .. } => Kind::AdvanceFeed,
            Call::Channels(_) => Kind::AdvanceChannels,
            Call::Read { .. } => Kind::Read,
        }
    }

    /// The first bytes of the trace that the call lends.
    pub fn trace(&self) -> &[u8] {
        match self {
            Call::Advance { trace, .. } | Call::Feed { trace, .. } => trace,
            Call::Channels(call) => &call.traces,
            _ => &[],
        }
    }

    /// The first bytes of the table of rules that the call lends.
    pub fn rules(&self) -> &[u8] {
        match self {
            Call::Advance { rules, .. } => rules,
            _ => &[],
        }
    }

    pub fn lent_beside(&self) -> LentBeside {
        LentBeside { trace: Lent::new(self.trace()), rules: Lent::new(self.rules()) }
    }

    /// Makes the call on an engine.
    pub fn make(
        &self,
        engine: &dyn Engine,
        model: &[u8],
        run: &mut Lent,
        beside: &mut LentBeside,
    ) -> Answer {
        match self {
            Call::Start => Answer::Written(engine.start(model, run.buffer())),
            Call::Advance { t, bag, .. } => {
                let (trace, rules) = (beside.trace.buffer(), beside.rules.buffer());
                Answer::Advanced(engine.advance(model, run.buffer(), *t, bag, trace, rules))
            }
            Call::Feed { end, feed, .. } => {
                let trace = beside.trace.buffer();
                Answer::Fed(engine.advance_feed(model, run.buffer(), *end, feed, trace))
            }
            Call::Channels(call) => {
                let (runs, traces) = (run.buffer(), beside.trace.buffer());
                Answer::Channels(engine.advance_channels(model, runs, &call.asked(), traces))
            }
            Call::Read { position } => {
                Answer::Reading(engine.read(model, run.content(), *position))
            }
        }
    }
}

impl Answer {
    pub fn number(&self) -> u64 {
        match self {
            Answer::Written(answer) => answer.number,
            Answer::Advanced(answer) => answer.number,
            Answer::Fed(answer) => answer.number,
            Answer::Channels(answer) => answer.number,
            Answer::Reading(answer) => answer.number,
        }
    }

    /// Whether every number but the refusal's is 0.
    pub fn is_otherwise_zero(&self) -> bool {
        match *self {
            Answer::Written(answer) => answer == Written::refused(answer.number),
            Answer::Advanced(answer) => answer == Advanced::refused(answer.number),
            Answer::Fed(answer) => answer == Fed::refused(answer.number),
            Answer::Channels(answer) => answer == Channels::refused(answer.number),
            Answer::Reading(answer) => answer == Reading::refused(answer.number),
        }
    }
}
