//! The flat machine, written from its own section of the papers. It is fed a model's flat form, and
//! its state is the bytes of the run buffer. It shares with the nest only what the tables of a single
//! atomic say of a phase, the byte forms, and the table's checks of a call.

mod channels;
mod transition;

pub use channels::advance_channels;
pub use transition::{changed, After, Brought, Change};

use crate::answers::{
    Advanced, Fed, Reading, Written, BAD_POSITION, BUFFER_TOO_SHORT, OUT_OF_STEPS, STILL_DUE,
    SUCCESS,
};
use crate::atomic::Atomic;
use crate::checks;
use crate::feed;
use crate::limits::{self, NO_RULE};
use crate::lit_rules;
use crate::little_endian::{put_u64, u64_at};
use crate::model::Model;
use crate::records::{Coupling, Message};
use crate::saved_run::{self, AtomicRun, ATOMIC_BYTES, HEAD_BYTES};
use crate::trace::write_record;

/// Start writes its run, as on the nest: it concerns single atomics only.
pub fn start(flat: &[u8], run: &mut [u8]) -> Written {
    saved_run::start(flat, run)
}

/// Reading answers from the state.
pub fn read(flat: &[u8], run: &[u8], position: u64) -> Reading {
    let model = match checks::model_and_run(flat, run) {
        Ok((model, _)) => model,
        Err(number) => return Reading::refused(number),
    };
    let machine = Machine::new(&model);
    if position >= machine.atomics.len() as u64 {
        return Reading::refused(BAD_POSITION);
    }
    let rank = position as usize;
    Reading {
        number: SUCCESS,
        phase: u64::from(phase(run, rank)),
        last: last(run, rank),
        next_due: machine.next_due(run).unwrap_or(limits::NEVER_DUE),
    }
}

/// Advance takes its instants in turn, each on a copy of the state.
pub fn advance(
    flat: &[u8],
    run: &mut [u8],
    t: u64,
    bag: &[u8],
    trace: &mut [u8],
    rules: &mut [u8],
) -> Advanced {
    advance_by(&mut changed, flat, run, t, bag, trace, rules)
}

/// A feed is the advance calls that it stands for.
pub fn advance_feed(flat: &[u8], run: &mut [u8], end: u64, feed: &[u8], trace: &mut [u8]) -> Fed {
    let mut make_call = |run: &mut [u8], t: u64, bag: &[u8], trace: &mut [u8]| {
        advance(flat, run, t, bag, trace, &mut [])
    };
    feed::run_by(&mut make_call, flat, run, end, feed, trace)
}

/// Advance of a machine whose atomics change as is said here. Only tests say anything but `changed`:
/// they try what a machine with a wrong transition would do.
pub fn advance_by(
    change: &mut Change,
    flat: &[u8],
    run: &mut [u8],
    t: u64,
    bag: &[u8],
    trace: &mut [u8],
    rules: &mut [u8],
) -> Advanced {
    let (model, given) = match checks::model_and_run(flat, run)
        .and_then(|(model, saved)| Ok((model, checks::time_and_bag(saved.open, t, bag)?)))
    {
        Ok(both) => both,
        Err(number) => return Advanced::refused(number),
    };
    Machine::new(&model).take_instants(change, run, t, &given, None, trace, rules)
}

struct Machine<'m> {
    atomics: Vec<Atomic<'m>>,
    couplings: &'m [Coupling],
}

/// What an instant works on: a copy of the state, and of the rules that it lights.
struct Copied {
    run: Vec<u8>,
    rules: Vec<u8>,
}

/// A message at the port that it leaves: an atomic by its rank from 1, or the root's input as 0.
struct Sent {
    source: usize,
    message: Message,
}

fn phase(state: &[u8], rank: usize) -> u8 {
    state[HEAD_BYTES + ATOMIC_BYTES * rank]
}

fn last(state: &[u8], rank: usize) -> u64 {
    u64_at(state, HEAD_BYTES + ATOMIC_BYTES * rank + 1)
}

fn open_moment(state: &[u8]) -> u64 {
    u64_at(state, 0)
}

impl<'m> Machine<'m> {
    fn new(flat: &'m Model) -> Machine<'m> {
        let components = flat.components.len();
        assert!(
            (1..components).all(|number| flat.components[number].is_atomic()),
            "the flat machine is fed a flat form"
        );
        let atomics = (1..components).map(|number| Atomic::new(flat, number)).collect();
        Machine { atomics, couplings: &flat.couplings }
    }

    /// Of the rules an instant takes none over.
    fn copy_of(&self, run: &[u8]) -> Copied {
        let atomics = self.atomics.len();
        Copied {
            run: run[..saved_run::length(atomics)].to_vec(),
            rules: NO_RULE.to_le_bytes().repeat(atomics),
        }
    }

    fn due(&self, state: &[u8], rank: usize) -> Option<u64> {
        let advance = self.atomics[rank].advance(phase(state, rank))?;
        Some(last(state, rank) + advance)
    }

    fn next_due(&self, state: &[u8]) -> Option<u64> {
        (0..self.atomics.len()).filter_map(|rank| self.due(state, rank)).min()
    }

    /// The moment of the next instant up to t. What has been done lies before the open moment, so
    /// after the instant at t, or without one there, nothing is left.
    fn next_instant(&self, state: &[u8], t: u64, given: &[Message]) -> Option<u64> {
        let bag_waits = !given.is_empty() && open_moment(state) <= t;
        match self.next_due(state) {
            Some(due) if due <= t => Some(due),
            _ if bag_waits => Some(t),
            _ => None,
        }
    }

    /// Takes the instants up to t, each on a copy of the state that a number drops. Where only so many steps are
    /// left, an instant that has more is dropped too.
    fn take_instants(
        &self,
        change: &mut Change,
        run: &mut [u8],
        t: u64,
        given: &[Message],
        steps_left: Option<u64>,
        trace: &mut [u8],
        rules: &mut [u8],
    ) -> Advanced {
        let mut answer = Advanced::refused(SUCCESS);
        while let Some(moment) = self.next_instant(run, t, given) {
            let mut copy = self.copy_of(run);
            let mut records = Vec::new();
            let given_here = if moment == t { given } else { &[] };
            let steps = match self.steps_at(change, &mut copy, moment, given_here, &mut records) {
                Ok(steps) => steps,
                Err(number) => return Advanced { number, ..answer },
            };
            let room = trace.len() as u64 - answer.trace_bytes;
            if records.len() as u64 > room {
                return Advanced { number: BUFFER_TOO_SHORT, ..answer };
            }
            if steps_left.is_some_and(|left| answer.steps + steps > left) {
                return Advanced { number: OUT_OF_STEPS, ..answer };
            }
            put_u64(&mut copy.run, 0, moment + 1);
            run[..copy.run.len()].copy_from_slice(&copy.run);
            if rules.len() >= copy.rules.len() {
                rules[..copy.rules.len()].copy_from_slice(&copy.rules);
            }
            let rest = &mut trace[answer.trace_bytes as usize..];
            rest[..records.len()].copy_from_slice(&records);
            answer.instants += 1;
            answer.steps += steps;
            answer.trace_bytes += records.len() as u64;
        }
        put_u64(run, 0, t + 1);
        answer
    }

    /// Takes the steps of the instant at a moment, or answers 13; 15 is left to the caller, who has the trace.
    fn steps_at(
        &self,
        change: &mut Change,
        copy: &mut Copied,
        moment: u64,
        given: &[Message],
        records: &mut Vec<u8>,
    ) -> Result<u64, u64> {
        let mut root_bags = Vec::new();
        root_bags.push(self.step(change, copy, moment, given));
        while self.next_due(&copy.run) == Some(moment) {
            if root_bags.len() as u64 == limits::STEPS_OF_AN_INSTANT {
                return Err(STILL_DUE);
            }
            root_bags.push(self.step(change, copy, moment, &[]));
        }
        let steps = root_bags.len() as u64;
        for (step, bag) in (0..).zip(root_bags).filter(|(_, bag)| !bag.is_empty()) {
            write_record(records, moment, step, bag);
        }
        Ok(steps)
    }

    /// One step: outputs, then every message along each coupling from its port, then all atomics
    /// change together. Answers the root's output bag.
    fn step(
        &self,
        change: &mut Change,
        copy: &mut Copied,
        moment: u64,
        given: &[Message],
    ) -> Vec<Message> {
        let state = &mut copy.run;
        let is_due: Vec<bool> =
            (0..self.atomics.len()).map(|rank| self.due(state, rank) == Some(moment)).collect();
        let mut sent: Vec<Sent> =
            given.iter().map(|&message| Sent { source: 0, message }).collect();
        for (rank, atomic) in self.atomics.iter().enumerate().filter(|(rank, _)| is_due[*rank]) {
            let outputs = atomic.outputs(phase(state, rank));
            sent.extend(outputs.iter().map(|&message| Sent { source: rank + 1, message }));
        }
        let mut bags = self.deliver(&sent);
        for (rank, atomic) in self.atomics.iter().enumerate() {
            let entry = AtomicRun { phase: phase(state, rank), last: last(state, rank) };
            let (is_due, bag) = (is_due[rank], &bags[rank + 1][..]);
            let after = change(&Brought { atomic, rank, entry, moment, is_due, bag });
            let at = HEAD_BYTES + ATOMIC_BYTES * rank;
            state[at] = after.entry.phase;
            put_u64(state, at + 1, after.entry.last);
            if let Some(rule) = after.rule {
                let at = lit_rules::length(rank);
                copy.rules[at..at + 2].copy_from_slice(&rule.to_le_bytes());
            }
        }
        bags.swap_remove(0)
    }

    /// What reaches each component: the root's output bag at 0, the atomics' bags from 1.
    fn deliver(&self, sent: &[Sent]) -> Vec<Vec<Message>> {
        let mut bags = vec![Vec::new(); self.atomics.len() + 1];
        for Sent { source, message } in sent {
            let port = (*source as u8, message.port);
            // The rows stand in order, so those from one port stand together.
            let from = |row: &Coupling| (row.source, row.source_port);
            let first = self.couplings.partition_point(|row| from(row) < port);
            for row in self.couplings[first..].iter().take_while(|row| from(row) == port) {
                bags[usize::from(row.target)]
                    .push(Message { port: row.target_port, value: message.value });
            }
        }
        bags
    }
}
