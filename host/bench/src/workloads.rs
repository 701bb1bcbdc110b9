//! What is measured: models, each with a list of advance calls from the run that start writes, or with a feed
//! that stands for them; and traces to rearrange.

mod bursts;
mod calls;
pub mod channels;
mod counting;
mod fans;
pub mod feeds;
pub mod growth;
mod nests;
mod rules;
mod stations;
pub mod traces;

use reference::builder::Builder;
use reference::decode::decode;
use reference::feed::{self, FeedBag};
use reference::flatten::flat_form;
use reference::lit_rules;
use reference::records::{Message, Phase, Rule};
use reference::routes;

/// One advance call.
#[derive(Clone)]
pub struct Advance {
    pub t: u64,
    pub bag: Vec<u8>,
}

#[derive(Clone)]
pub struct Workload {
    pub name: String,
    pub model: Vec<u8>,
    pub calls: Vec<Advance>,
    /// The length of the table of rules that each call lends: 0, or just enough.
    pub rules_bytes: usize,
    /// The bytes of a feed to be run to its last bag, in place of the calls.
    pub feed: Option<Vec<u8>>,
}

impl Workload {
    /// One call that runs a model to a moment.
    fn long_call(name: impl Into<String>, model: &Builder, t: u64) -> Workload {
        Workload::with_calls(name, model, vec![Advance { t, bag: Vec::new() }])
    }

    fn with_calls(name: impl Into<String>, model: &Builder, calls: Vec<Advance>) -> Workload {
        Workload { name: name.into(), model: model.file(), calls, rules_bytes: 0, feed: None }
    }

    /// The same calls, each with a table of rules.
    fn lit(mut self) -> Workload {
        let atomics = decode(&self.model).expect("an accepted model").atomics().len();
        self.name += ", lit";
        self.rules_bytes = lit_rules::length(atomics);
        self
    }

    /// The same calls as one feed.
    fn fed(mut self) -> Workload {
        let messages = |bag: &[u8]| bag.chunks_exact(Message::BYTES).map(Message::read).collect();
        let bag = |call: &Advance| FeedBag { moment: call.t, messages: messages(&call.bag) };
        self.feed = Some(feed::encode(&self.calls.iter().map(bag).collect::<Vec<FeedBag>>()));
        self
    }

    /// The same calls, made one by one.
    pub fn by_calls(&self) -> Workload {
        Workload { feed: None, ..self.clone() }
    }

    /// The moment of the last call.
    pub fn end(&self) -> u64 {
        self.calls.last().expect("a workload has a call").t
    }

    /// The model's flat form.
    pub fn flat_model(&self) -> Vec<u8> {
        flat_form(&decode(&self.model).expect("an accepted model")).encode()
    }

    pub fn routes(&self) -> u64 {
        routes::count(&decode(&self.model).expect("an accepted model"))
    }
}

/// Long calls, in which the steps count.
pub fn steps() -> Vec<Workload> {
    [nests::all(), stations::all(), fans::all(), rules::all(), counting::all(), bursts::all()]
        .into_iter()
        .flatten()
        .collect()
}

/// Many short calls, in which a call's fixed cost counts; and one kind with the largest bag of an atomic.
pub fn short_calls() -> Vec<Workload> {
    calls::all()
}

/// A rule that so many messages with any value on port 0 satisfy.
fn any_value(atomic: usize, phase: u8, least_count: u16, next_phase: u8) -> Rule {
    let rule = reference::builder::rule(atomic, phase, 0, next_phase);
    Rule { high_value: u16::MAX, least_count, ..rule }
}

/// The phases of a timer that is due at a first moment and then after each period.
fn timer(first: u32, period: u32, value: u16) -> [Phase; 2] {
    [first, period].map(|advance| reference::builder::phase(advance, 1, &[(0, value)]))
}
