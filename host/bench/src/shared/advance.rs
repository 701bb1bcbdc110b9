//! Advance on lent buffers, with any way of taking a step: the checks, instants in turn up to one moment or
//! to several, and the run written back. Nothing is taken from the heap.

use super::held::Held;
use super::lights::{Dark, Lights, Lit};
use super::model_file::ModelFile;
use super::tables::Tables;
use super::trace_records::put_step;
use super::unchecked::front;
use reference::answers::{
    Advanced, BAD_BAG, BAD_TIME, BUFFER_TOO_SHORT, OUT_OF_STEPS, STILL_DUE, SUCCESS,
};
use reference::limits;
use reference::lit_rules;
use reference::records::Message;

/// Records of an instant up to this length need no second pass.
const SCRATCH: usize = 4_096;
/// A model with so few routes gets small buffers.
const FEW_ROUTES: usize = 64;
/// A route carries at most so many messages into an atomic, and so many to the root.
const INTO_ATOMIC: usize = limits::GIVEN_MESSAGES;
const INTO_ROOT: usize = limits::OUTPUTS_OF_A_PHASE as usize;

/// An accepted model: its records, and the tables made of them.
pub struct Accepted<'c> {
    pub model: &'c ModelFile<'c>,
    pub tables: &'c Tables,
}

/// What is lent to a step: room for one atomic's bag, for the root's output bag, and for the rules lit.
pub struct Buffers<'b, L> {
    pub bag: &'b mut [u32],
    pub root: &'b mut [u32],
    pub lights: L,
}

/// A way of taking steps, with what it computes once in a call.
pub trait Simulator {
    /// What an instant copies: phases, last moments, and what the simulator derives from them.
    type State: Clone;

    fn new(accepted: &Accepted) -> Self;

    fn state(&self, accepted: &Accepted, held: Held) -> Self::State;

    fn held(state: &Self::State) -> &Held;

    fn next_due(&self, accepted: &Accepted, state: &Self::State) -> u64;

    /// Takes a step. Answers the length of the root's output bag, which stands sorted in its buffer.
    fn step<L: Lights>(
        &self,
        accepted: &Accepted,
        state: &mut Self::State,
        now: u64,
        given: &[u8],
        buffers: &mut Buffers<L>,
    ) -> usize;
}

/// The number by which a model file is refused, or 0.
pub fn check_model(file: &[u8]) -> u64 {
    let mut tables = Tables::empty();
    let filled = ModelFile::read(file).and_then(|model| tables.fill(&model));
    filled.err().unwrap_or(SUCCESS)
}

/// A moment to advance to, and the bag given there.
#[derive(Clone, Copy)]
pub struct Stop<'s> {
    pub t: u64,
    pub given: &'s [u8],
}

/// How many steps a call may take in all.
pub trait Allowance: Copy {
    fn fits(self, spent: u64, steps: u64) -> bool;
}

#[derive(Clone, Copy)]
pub struct AsManyAsItTakes;

#[derive(Clone, Copy)]
pub struct AtMost(pub u64);

impl Allowance for AsManyAsItTakes {
    #[inline(always)]
    fn fits(self, _: u64, _: u64) -> bool {
        true
    }
}

impl Allowance for AtMost {
    #[inline(always)]
    fn fits(self, spent: u64, steps: u64) -> bool {
        steps <= self.0 - spent
    }
}

/// Advances a run to the moment t, with the bag given there, and lights what decided in the last instant.
pub fn advance<S: Simulator>(
    file: &[u8],
    run: &mut [u8],
    t: u64,
    given: &[u8],
    trace: &mut [u8],
    rules: &mut [u8],
) -> Advanced {
    let model = match ModelFile::read(file) {
        Ok(model) => model,
        Err(number) => return Advanced::refused(number),
    };
    let mut tables = Tables::empty();
    if let Err(number) = tables.fill(&model) {
        return Advanced::refused(number);
    }
    let (open, held) = match Held::load(&model, &tables, run) {
        Ok(loaded) => loaded,
        Err(number) => return Advanced::refused(number),
    };
    if t < open || t > limits::HIGHEST_TIME {
        return Advanced::refused(BAD_TIME);
    }
    if !bag_is_legal(given) {
        return Advanced::refused(BAD_BAG);
    }
    let accepted = Accepted { model: &model, tables: &tables };
    let stops = std::iter::once(Stop { t, given });
    run_to::<S>(accepted, open, held, stops, Lent { run, trace, rules }).0
}

/// Advances to each stop in turn, after all checks. Answers the counts, and at how many stops it arrived.
#[inline(always)]
pub fn run_to<'s, S: Simulator>(
    accepted: Accepted,
    open: u64,
    held: Held,
    stops: impl Iterator<Item = Stop<'s>>,
    lent: Lent,
) -> (Advanced, u64) {
    let needed = lit_rules::length(accepted.tables.atomics).max(1);
    let call = Call { simulator: S::new(&accepted), accepted };
    let state = &mut call.simulator.state(&call.accepted, held);
    if lent.rules.len() < needed {
        call.run_with_buffers(open, state, stops, lent, Dark)
    } else {
        call.run_lit(open, state, stops, lent)
    }
}

pub fn bag_is_legal(given: &[u8]) -> bool {
    given.len().is_multiple_of(Message::BYTES)
        && given.len() <= limits::GIVEN_MESSAGES * Message::BYTES
        && given.chunks_exact(Message::BYTES).all(|message| message[0] <= limits::HIGHEST_PORT)
}

/// The buffers that a call writes.
pub struct Lent<'l> {
    pub run: &'l mut [u8],
    pub trace: &'l mut [u8],
    pub rules: &'l mut [u8],
}

/// A call that has passed the checks.
pub struct Call<'c, S> {
    pub simulator: S,
    pub accepted: Accepted<'c>,
}

/// What became of an instant: a number, its steps, where its records end, and what is due next.
struct Ran {
    number: u64,
    steps: u64,
    used: usize,
    due: u64,
}

impl<S: Simulator> Call<'_, S> {
    /// A function of its own, so that a call without a table does not pay for it.
    #[inline(never)]
    fn run_lit<'s>(
        &self,
        open: u64,
        state: &mut S::State,
        stops: impl Iterator<Item = Stop<'s>>,
        lent: Lent,
    ) -> (Advanced, u64) {
        self.run_with_buffers(open, state, stops, lent, Lit::new())
    }

    #[inline(always)]
    fn run_with_buffers<'s, L: Lights>(
        &self,
        open: u64,
        state: &mut S::State,
        stops: impl Iterator<Item = Stop<'s>>,
        lent: Lent,
        lights: L,
    ) -> (Advanced, u64) {
        if self.accepted.tables.routes > FEW_ROUTES {
            return self.run_with_large_buffers(open, state, stops, lent, lights);
        }
        let mut bag = [0; FEW_ROUTES * INTO_ATOMIC];
        let mut root = [0; FEW_ROUTES * INTO_ROOT];
        let mut buffers = Buffers { bag: &mut bag, root: &mut root, lights };
        self.run(open, state, stops, AsManyAsItTakes, lent, &mut buffers)
    }

    /// A function of its own, so that a small call does not pay for these.
    #[inline(never)]
    fn run_with_large_buffers<'s, L: Lights>(
        &self,
        open: u64,
        state: &mut S::State,
        stops: impl Iterator<Item = Stop<'s>>,
        lent: Lent,
        lights: L,
    ) -> (Advanced, u64) {
        let mut bag = [0; limits::ROUTES as usize * INTO_ATOMIC];
        let mut root = [0; limits::ROUTES as usize * INTO_ROOT];
        let mut buffers = Buffers { bag: &mut bag, root: &mut root, lights };
        self.run(open, state, stops, AsManyAsItTakes, lent, &mut buffers)
    }

    /// Lends buffers for bags that are large enough to what several runs do with them.
    #[inline(always)]
    pub fn with_buffers<R>(&self, several: impl FnOnce(&Self, &mut Buffers<Dark>) -> R) -> R {
        if self.accepted.tables.routes > FEW_ROUTES {
            return self.with_large_buffers(several);
        }
        let mut bag = [0; FEW_ROUTES * INTO_ATOMIC];
        let mut root = [0; FEW_ROUTES * INTO_ROOT];
        several(self, &mut Buffers { bag: &mut bag, root: &mut root, lights: Dark })
    }

    #[inline(never)]
    fn with_large_buffers<R>(&self, several: impl FnOnce(&Self, &mut Buffers<Dark>) -> R) -> R {
        let mut bag = [0; limits::ROUTES as usize * INTO_ATOMIC];
        let mut root = [0; limits::ROUTES as usize * INTO_ROOT];
        several(self, &mut Buffers { bag: &mut bag, root: &mut root, lights: Dark })
    }

    /// Does the instants due before each stop, then the stop with its bag, and writes the run back.
    #[inline(never)]
    pub fn run<'s, L: Lights>(
        &self,
        open: u64,
        state: &mut S::State,
        stops: impl Iterator<Item = Stop<'s>>,
        allowance: impl Allowance,
        lent: Lent,
        buffers: &mut Buffers<L>,
    ) -> (Advanced, u64) {
        let mut scratch = [0; SCRATCH];
        let mut answer = Advanced::refused(SUCCESS);
        let mut open = open;
        let mut due = self.simulator.next_due(&self.accepted, state);
        let mut arrived = 0;
        'stops: for Stop { t, given } in stops {
            loop {
                let (now, given) = if due < t { (due, &[][..]) } else { (t, given) };
                if due == now || !given.is_empty() {
                    let mut after = state.clone();
                    let ran = self.instant(&mut after, due, now, given, &mut scratch, buffers);
                    let rest = &mut lent.trace[answer.trace_bytes as usize..];
                    answer.number = match ran.number {
                        SUCCESS if ran.used > rest.len() => BUFFER_TOO_SHORT,
                        SUCCESS if !allowance.fits(answer.steps, ran.steps) => OUT_OF_STEPS,
                        number => number,
                    };
                    if answer.number != SUCCESS {
                        break 'stops;
                    }
                    if ran.used <= SCRATCH {
                        rest[..ran.used].copy_from_slice(front(&scratch, ran.used));
                    } else {
                        self.instant(&mut state.clone(), due, now, given, rest, buffers);
                    }
                    buffers.lights.keep();
                    answer.instants += 1;
                    answer.steps += ran.steps;
                    answer.trace_bytes += ran.used as u64;
                    *state = after;
                    due = ran.due;
                    open = now + 1;
                }
                if now == t {
                    open = t + 1;
                    break;
                }
            }
            arrived += 1;
        }
        let atomics = self.accepted.tables.atomics;
        S::held(state).save(open, atomics, lent.run);
        if answer.instants > 0 {
            buffers.lights.write(atomics, lent.rules);
        }
        (answer, arrived)
    }

    /// All steps at one moment. Records are put where they fit, and counted in any case: one function
    /// for a first pass into a scratch and a second one into the trace.
    fn instant<L: Lights>(
        &self,
        state: &mut S::State,
        due: u64,
        now: u64,
        given: &[u8],
        out: &mut [u8],
        buffers: &mut Buffers<L>,
    ) -> Ran {
        buffers.lights.begin();
        let mut ran = Ran { number: SUCCESS, steps: 0, used: 0, due };
        let mut given = given;
        while ran.due == now || !given.is_empty() {
            if ran.steps == limits::STEPS_OF_AN_INSTANT {
                ran.number = STILL_DUE;
                break;
            }
            let count = self.simulator.step(&self.accepted, state, now, given, buffers);
            ran.used = put_step(out, ran.used, now, ran.steps, front(buffers.root, count));
            ran.steps += 1;
            ran.due = self.simulator.next_due(&self.accepted, state);
            given = &[];
        }
        ran
    }
}
