//! Timing a list of calls on several engines. Rounds go from engine to engine, and the best round of
//! each counts.

use crate::engine::{Engine, Functions};
use crate::workloads::Workload;
use reference::{limits, saved_run, Advanced, Fed, Reading};
use std::hint::black_box;
use std::time::{Duration, Instant};

/// Every engine by its name; the yardsticks come first.
pub type Engines = [(&'static str, Functions)];

/// A round on one engine lasts about so long.
const ROUND: Duration = Duration::from_millis(2);
const TRACE_BYTES: usize = 1 << 18;

/// What a pass over the calls did, and how long the best one took on each engine, in nanoseconds.
pub struct Measured {
    pub calls: u64,
    pub steps: u64,
    pub best: Vec<f64>,
}

impl Measured {
    pub fn per_step(&self) -> Vec<f64> {
        self.best.iter().map(|best| best / self.steps as f64).collect()
    }

    pub fn per_call(&self) -> Vec<f64> {
        self.best.iter().map(|best| best / self.calls as f64).collect()
    }
}

/// The model that is run, and the run, trace and table of rules that are lent.
struct Bench<'w> {
    model: &'w [u8],
    workload: &'w Workload,
    started: Vec<u8>,
    run: Vec<u8>,
    trace: Vec<u8>,
    rules: Vec<u8>,
}

/// What an engine answers to everything, and the bytes that it writes.
#[derive(PartialEq)]
struct Outcome {
    check: u64,
    flat: Vec<u8>,
    started: Vec<u8>,
    /// With the trace and the table of rules after each.
    advances: Vec<(Advanced, Vec<u8>, Vec<u8>)>,
    /// With the trace after it.
    fed: Option<(Fed, Vec<u8>)>,
    run: Vec<u8>,
    readings: Vec<Reading>,
}

impl Outcome {
    /// The number and the steps of each call that was made.
    fn answers(&self) -> impl Iterator<Item = (u64, u64)> + '_ {
        let advances = self.advances.iter().map(|(answer, ..)| (answer.number, answer.steps));
        advances.chain(self.fed.iter().map(|(fed, _)| (fed.number, fed.steps)))
    }
}

/// Measures a workload's calls on one form of its model. It is an error where engines differ or
/// refuse a call.
pub fn measure(
    engines: &Engines,
    workload: &Workload,
    model: &[u8],
    rounds: usize,
) -> Result<Measured, String> {
    let expected = outcome(&engines[0].1, model, workload);
    for (name, engine) in engines {
        if outcome(engine, model, workload) != expected {
            return Err(format!("{}: {name} has another outcome", workload.name));
        }
    }
    if let Some((number, _)) = expected.answers().find(|(number, _)| *number != 0) {
        return Err(format!("{}: refused by {number}", workload.name));
    }
    let mut bench = Bench::new(model, workload, &expected.started);
    let passes = passes_in_a_round(|| bench.round(&engines[0].1, 1));
    let mut best = vec![f64::INFINITY; engines.len()];
    for round in 0..rounds {
        // Another engine begins in each round.
        for turn in round..round + engines.len() {
            let number = turn % engines.len();
            best[number] = best[number].min(bench.round(&engines[number].1, passes));
        }
    }
    let steps = expected.answers().map(|(_, steps)| steps).sum();
    Ok(Measured { calls: workload.calls.len() as u64, steps, best })
}

/// Makes all calls on a model, advance as listed or the feed that stands for them.
fn outcome(engine: &Functions, model: &[u8], workload: &Workload) -> Outcome {
    let mut flat = vec![0; model.len() + 4 * limits::COUPLINGS];
    let written = engine.flatten(model, &mut flat);
    flat.truncate(written.bytes as usize);
    let mut run = vec![0; saved_run::length(limits::COMPONENTS)];
    let written = engine.start(model, &mut run);
    run.truncate(written.bytes as usize);
    let started = run.clone();
    let mut trace = vec![0; TRACE_BYTES];
    let mut advances = Vec::new();
    let fed = workload.feed.as_ref().map(|feed| {
        let fed = engine.advance_feed(model, &mut run, workload.end(), feed, &mut trace);
        (fed, trace[..fed.trace_bytes as usize].to_vec())
    });
    let calls = if fed.is_some() { &[] } else { &workload.calls[..] };
    for call in calls {
        let mut rules = vec![0; workload.rules_bytes];
        let answer = engine.advance(model, &mut run, call.t, &call.bag, &mut trace, &mut rules);
        advances.push((answer, trace[..answer.trace_bytes as usize].to_vec(), rules));
    }
    let positions = 0..limits::COMPONENTS as u64;
    let readings = positions.map(|position| engine.read(model, &run, position)).collect();
    Outcome { check: engine.check_model(model), flat, started, advances, fed, run, readings }
}

impl<'w> Bench<'w> {
    fn new(model: &'w [u8], workload: &'w Workload, started: &[u8]) -> Bench<'w> {
        let (started, run) = (started.to_vec(), started.to_vec());
        let (trace, rules) = (vec![0; TRACE_BYTES], vec![0; workload.rules_bytes]);
        Bench { model, workload, started, run, trace, rules }
    }

    /// One pass over the calls from the started run. Trace and rules are not cleared between calls.
    fn pass(&mut self, engine: &Functions) {
        self.run.copy_from_slice(&self.started);
        let (run, trace, rules) = (&mut self.run, &mut self.trace, &mut self.rules);
        if let Some(feed) = &self.workload.feed {
            black_box(engine.advance_feed(self.model, run, self.workload.end(), feed, trace));
            return;
        }
        for call in &self.workload.calls {
            black_box(engine.advance(self.model, run, call.t, &call.bag, trace, rules));
        }
    }

    /// The time of one pass, from so many.
    fn round(&mut self, engine: &Functions, passes: u32) -> f64 {
        let begun = Instant::now();
        (0..passes).for_each(|_| self.pass(engine));
        begun.elapsed().as_secs_f64() * 1e9 / f64::from(passes)
    }
}

/// How many passes of this time, in nanoseconds, make a round.
pub fn passes_in_a_round(mut pass: impl FnMut() -> f64) -> u32 {
    let pass = (0..5).map(|_| pass()).fold(f64::INFINITY, f64::min);
    (ROUND.as_secs_f64() * 1e9 / pass).clamp(1.0, 1e6) as u32
}
