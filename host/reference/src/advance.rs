//! Advance and reading on the nest, on whole buffers.

use crate::answers::{
    Advanced, Reading, BAD_POSITION, BUFFER_TOO_SHORT, OUT_OF_STEPS, STILL_DUE, SUCCESS,
};
use crate::checks;
use crate::limits;
use crate::lit_rules::{LastInstant, LitRules};
use crate::model::Model;
use crate::nest::{self, DeadWays};
use crate::observed::Observed;
use crate::records::Message;
use crate::root_coordinator::{Instant, RootCoordinator};
use crate::saved_run::SavedRun;

/// The buffers that an advance writes beside the run: the trace, and the table of rules that decided.
pub struct Lent<'l> {
    pub trace: &'l mut [u8],
    pub rules: &'l mut [u8],
}

/// Advances a run to the moment t, with the bag given there.
pub fn advance(
    file: &[u8],
    run: &mut [u8],
    t: u64,
    bag: &[u8],
    lent: Lent,
    dead_ways: DeadWays,
    observed: &mut Observed,
) -> Advanced {
    let (model, saved) = match checks::model_and_run(file, run) {
        Ok(both) => both,
        Err(number) => return Advanced::refused(number),
    };
    let given = match checks::time_and_bag(saved.open, t, bag) {
        Ok(given) => given,
        Err(number) => return Advanced::refused(number),
    };
    let stop = Stop { t, given: &given, steps: Steps::AsManyAsItTakes };
    advance_accepted(&model, saved, run, stop, lent, dead_ways, observed)
}

/// How many steps the instants of an advance may have together.
#[derive(Clone, Copy)]
pub enum Steps {
    AsManyAsItTakes,
    AtMost(u64),
}

/// The moment to advance to, the bag given there, and the steps on the way.
#[derive(Clone, Copy)]
pub struct Stop<'s> {
    pub t: u64,
    pub given: &'s [Message],
    pub steps: Steps,
}

/// An advance whose run, time and bag are accepted: it does its instants and writes the run.
pub fn advance_accepted(
    model: &Model,
    mut saved: SavedRun,
    run: &mut [u8],
    stop: Stop,
    lent: Lent,
    dead_ways: DeadWays,
    observed: &mut Observed,
) -> Advanced {
    let root = nest::root(model, dead_ways);
    let mut coordinator = RootCoordinator::load(&root, &saved.atomics);
    let Ran { answer, open, lit } =
        run_to(&mut coordinator, saved.open, stop, lent.trace, observed);
    if let Some(lit) = lit {
        lit.write(lent.rules);
    }
    saved.open = open;
    coordinator.save(&mut saved.atomics);
    saved.write(run);
    answer
}

/// What the instants of a call came to: its numbers, the open moment, and what the last instant lit.
struct Ran {
    answer: Advanced,
    open: u64,
    lit: Option<LitRules>,
}

/// The row "each instant", over the whole instant: first 13, then 15 where the trace has only so much room, and
/// last 22 where the instants before it leave too few steps.
fn judge(instant: &Instant, room: usize, steps: Steps, spent: u64) -> u64 {
    let fits = match steps {
        Steps::AsManyAsItTakes => true,
        Steps::AtMost(most) => instant.steps <= most - spent,
    };
    if instant.still_due {
        STILL_DUE
    } else if instant.records.len() > room {
        BUFFER_TOO_SHORT
    } else if !fits {
        OUT_OF_STEPS
    } else {
        SUCCESS
    }
}

/// Does the instants due before t, then t with the bag.
fn run_to(
    coordinator: &mut RootCoordinator,
    first_open: u64,
    Stop { t, given, steps }: Stop,
    trace: &mut [u8],
    observed: &mut Observed,
) -> Ran {
    let mut ran = Ran { answer: Advanced::refused(SUCCESS), open: first_open, lit: None };
    let mut lit_earlier = vec![false; coordinator.atomics()];
    loop {
        let due = coordinator.due();
        let now = due.filter(|&due| due < t).unwrap_or(t);
        let bag = if now == t { given } else { &[] };
        if due == Some(now) || !bag.is_empty() {
            let instant = coordinator.instant(now, bag, observed);
            let room = &mut trace[ran.answer.trace_bytes as usize..];
            let length = instant.records.len();
            ran.answer.number = judge(&instant, room.len(), steps, ran.answer.steps);
            if ran.answer.number != SUCCESS {
                if let Some(last) = &ran.lit {
                    observed.last_instant.left_undone(last, &instant.lit);
                }
                return ran;
            }
            room[..length].copy_from_slice(&instant.records);
            *coordinator = instant.after;
            ran.answer.instants += 1;
            ran.answer.steps += instant.steps;
            ran.answer.trace_bytes += length as u64;
            ran.open = now + 1;
            observed.last_instant = LastInstant::new(&instant.lit, &lit_earlier);
            let lit_here = instant.lit.rules().map(|rule| rule.is_some());
            lit_earlier.iter_mut().zip(lit_here).for_each(|(earlier, here)| *earlier |= here);
            ran.lit = Some(instant.lit);
        }
        if now == t {
            ran.open = t + 1;
            return ran;
        }
    }
}

/// Where one atomic stands, and the whole model's next due moment.
pub fn read(file: &[u8], run: &[u8], position: u64) -> Reading {
    let (model, saved) = match checks::model_and_run(file, run) {
        Ok(both) => both,
        Err(number) => return Reading::refused(number),
    };
    if position >= saved.atomics.len() as u64 {
        return Reading::refused(BAD_POSITION);
    }
    let root = nest::root(&model, DeadWays::Dropped);
    let coordinator = RootCoordinator::load(&root, &saved.atomics);
    let atomic = saved.atomics[position as usize];
    Reading {
        number: SUCCESS,
        phase: u64::from(atomic.phase),
        last: atomic.last,
        next_due: coordinator.due().unwrap_or(limits::NEVER_DUE),
    }
}
