//! A model for calls on channels: its runs can be put where their next instants have as many steps as a row wants.

use reference::builder::{phase, rule, Builder, NEVER};
use reference::examples::{CUE, JAM};
use reference::records::Phase;
use reference::saved_run::{AtomicRun, SavedRun};

const CYCLE: u8 = 30;
const ROUNDS: u8 = 33;
const TAIL: u8 = 32;
const PAUSE: u8 = CYCLE + TAIL;

/// Phases of the ticker, the round and the counter of `bursts`. With the counter in phase 0 an instant at the end
/// of the round's pause has 1,024 steps; in its last phase but one, 64. The run starts with all at rest.
pub type Standing = [u8; 3];
pub const QUIET: Standing = [0, PAUSE + 1, 0];
pub const TICKS: Standing = [1, PAUSE + 1, 0];
pub const TICKS_SILENTLY: Standing = [3, PAUSE + 1, 0];
pub const ONE_STEP_AT_5: Standing = [4, PAUSE + 1, 0];
pub const BURSTS: Standing = [0, PAUSE, 0];
pub const ONE_STEP_THEN_BURSTS: Standing = [4, PAUSE, 0];
pub const SHORT_BURST_FIRST: Standing = [0, PAUSE, ROUNDS - 1];
/// There is no such phase.
pub const DOES_NOT_FIT: Standing = [9, PAUSE, 0];

/// A ticker that a cue starts or jams, and a round that bursts every 10: it goes through a cycle of phases until
/// the counter, which hears of each time, stops it, runs down a tail, and pauses. Each tick with output and each
/// burst has one record of 15 bytes.
pub fn bursts() -> Builder {
    let mut model = Builder::new();
    let ticker_phases = [
        phase(NEVER, 0, &[]),
        phase(1, 1, &[(0, 1)]),
        phase(0, 2, &[]),
        phase(1, 3, &[]),
        phase(5, 0, &[]),
    ];
    let ticker = model.atomic(0, &ticker_phases);
    let mut round_phases: Vec<Phase> = (0..CYCLE - 1).map(|own| phase(0, own + 1, &[])).collect();
    round_phases.push(phase(0, 0, &[(0, 1)]));
    round_phases.extend((CYCLE..PAUSE).map(|own| phase(0, own + 1, &[])));
    round_phases.extend([phase(10, 0, &[]), phase(NEVER, PAUSE + 1, &[])]);
    let round = model.atomic_from(0, PAUSE + 1, 0, &round_phases);
    let mut counter_phases: Vec<Phase> = (0..ROUNDS).map(|own| phase(NEVER, own, &[])).collect();
    counter_phases.push(phase(0, 0, &[(0, 9)]));
    let counter = model.atomic(0, &counter_phases);
    model.rule(rule(ticker, 0, CUE, 1));
    model.rule(rule(ticker, 0, JAM, 2));
    (0..CYCLE).for_each(|own| model.rule(rule(round, own, 9, CYCLE)));
    (0..ROUNDS).for_each(|own| model.rule(rule(counter, own, 1, own + 1)));
    model.couple(0, 0, ticker, 0);
    model.couple(ticker, 0, 0, 0);
    model.couple(round, 0, counter, 0);
    model.couple(counter, 0, round, 0);
    model.couple(counter, 0, 0, 1);
    model
}

/// A run of `bursts` with its last moments at 0.
pub fn standing(open: u64, phases: Standing) -> SavedRun {
    SavedRun { open, atomics: phases.map(|phase| AtomicRun { phase, last: 0 }).into() }
}
