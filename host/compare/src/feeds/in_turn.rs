//! A feed against its advance calls, made one by one on every engine: the run buffer, what they write,
//! joined, and the counts, added up.

use super::arguments::Plan;
use crate::call::{Answer, Call};
use crate::comparison::{CallList, Compared, Comparison, Outcome};
use reference::Fed;

/// A feed that was run, and what became of it.
pub struct Fact {
    file: Vec<u8>,
    run_before: Vec<u8>,
    run_after: Vec<u8>,
    plan: Plan,
    first_trace: Vec<u8>,
    fed: Fed,
    trace: Vec<u8>,
}

impl Fact {
    /// Runs a plan's feed in a list.
    pub fn of(list: &mut CallList, plan: Plan, call: &Call) -> Compared<(Outcome, Fact)> {
        let run_before = list.run().to_vec();
        let outcome = list.call(call)?;
        let Answer::Fed(fed) = outcome.answer else {
            return Err("an answer of another call".into());
        };
        let fact = Fact {
            file: list.file.clone(),
            run_before,
            run_after: list.run().to_vec(),
            plan,
            first_trace: call.trace().to_vec(),
            fed,
            trace: outcome.trace.clone(),
        };
        Ok((outcome, fact))
    }

    /// Makes the calls that the feed stands for, in a list of their own. They come on top of the calls that a
    /// run asks for, so that it has no fewer random models for them.
    pub fn holds_in_turn(&self, comparison: &mut Comparison) -> Compared<()> {
        let calls = comparison.calls;
        let outcome = self.calls_in_turn(comparison);
        comparison.calls_in_turn += comparison.calls - calls;
        comparison.calls = calls;
        outcome
    }

    fn calls_in_turn(&self, comparison: &mut Comparison) -> Compared<()> {
        let mut list = comparison.list(&self.file, &self.run_before);
        let mut trace = self.first_trace.clone();
        let mut sum = Fed::refused(0);
        let (calls, bags) = self.plan.calls();
        for (place, call) in calls.iter().enumerate() {
            let left = &mut trace[sum.trace_bytes as usize..];
            let (t, bag) = (call.moment, call.given());
            let advance = Call::Advance { t, bag, trace: left.to_vec(), rules: Vec::new() };
            let outcome = list.call(&advance)?;
            left.copy_from_slice(&outcome.trace);
            let Answer::Advanced(answer) = outcome.answer else {
                return Err("an answer of another call".into());
            };
            sum.number = answer.number;
            sum.instants += answer.instants;
            sum.steps += answer.steps;
            sum.trace_bytes += answer.trace_bytes;
            if answer.number != 0 {
                break;
            }
            sum.bags = (place as u64 + 1).min(bags as u64);
        }
        if sum != self.fed {
            return Err(format!("a feed gives {:?}, its calls in turn {sum:?}", self.fed));
        }
        if list.run() != self.run_after || trace != self.trace {
            return Err("a feed leaves other bytes than its calls in turn".into());
        }
        Ok(())
    }
}
