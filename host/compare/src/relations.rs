//! What two calls say of each other, tested on the reference: the order of a bag changes nothing,
//! and an advance in two parts is the advance in one.

use crate::comparison::Compared;
use crate::random::Random;
use crate::runs::open_moment;
use reference::Advanced;

/// An advance call that succeeded, and its outcome.
pub struct Succeeded<'c> {
    pub file: &'c [u8],
    pub run_before: &'c [u8],
    pub run_after: &'c [u8],
    pub t: u64,
    pub bag: &'c [u8],
    pub answer: Advanced,
    /// The records written.
    pub records: &'c [u8],
    /// The table of rules as it was lent, and as it is now.
    pub rules_before: &'c [u8],
    pub rules_after: &'c [u8],
}

/// What a call, or two in turn, have left in the buffers.
struct Left {
    run: Vec<u8>,
    trace: Vec<u8>,
    rules: Vec<u8>,
}

impl Succeeded<'_> {
    /// The buffers that the call was given, the trace just long enough.
    fn buffers(&self) -> Left {
        Left {
            run: self.run_before.to_vec(),
            trace: vec![0; self.records.len()],
            rules: self.rules_before.to_vec(),
        }
    }

    fn left_the_same(&self, left: &Left) -> bool {
        left.run == self.run_after && left.trace == self.records && left.rules == self.rules_after
    }

    /// The same call with the messages of its bag in another order has the same outcome.
    pub fn holds_for_any_order(&self, random: &mut Random) -> Compared<()> {
        let mut rows: Vec<&[u8]> = self.bag.chunks_exact(3).collect();
        for last in (1..rows.len()).rev() {
            rows.swap(last, random.index(last + 1));
        }
        let mut left = self.buffers();
        let Left { run, trace, rules } = &mut left;
        let answer = reference::advance(self.file, run, self.t, &rows.concat(), trace, rules);
        if answer != self.answer || !self.left_the_same(&left) {
            return Err(format!("the bag {:?} in another order gave another outcome", self.bag));
        }
        Ok(())
    }

    /// The same moment reached by a stop on the way gives the same run, counts and records. Where nothing is
    /// done after the stop, the table of rules is the one that was lit before it.
    pub fn holds_in_two_parts(&self, random: &mut Random) -> Compared<()> {
        let open = open_moment(self.run_before);
        if open == self.t {
            return Ok(());
        }
        let stop = random.between(open, self.t - 1);
        let mut left = self.buffers();
        let Left { run, trace, rules } = &mut left;
        let first = reference::advance(self.file, run, stop, &[], trace, rules);
        let rest = &mut trace[first.trace_bytes as usize..];
        let second = reference::advance(self.file, run, self.t, self.bag, rest, rules);
        let whole = Advanced {
            number: first.number.max(second.number),
            instants: first.instants + second.instants,
            steps: first.steps + second.steps,
            trace_bytes: first.trace_bytes + second.trace_bytes,
        };
        if whole != self.answer || !self.left_the_same(&left) {
            return Err(format!(
                "an advance to {} with a stop at {stop} gave another outcome",
                self.t
            ));
        }
        Ok(())
    }
}
