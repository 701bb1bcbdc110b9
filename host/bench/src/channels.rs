//! Timing calls on several channels: together in one call, and by an advance for each of them.

use crate::engine::{Engine, Functions};
use crate::measure::{passes_in_a_round, Engines};
use crate::workloads::channels::Together;
use reference::limits::CHANNELS;
use reference::{Advanced, Asked, Place};
use std::hint::black_box;
use std::time::Instant;

/// The bytes of trace of each channel.
const TRACE_BYTES: usize = 1 << 12;

/// One way to make the calls.
#[derive(Clone, Copy, PartialEq, Eq)]
pub enum Way {
    Together,
    OneByOne,
}

struct Bench<'w> {
    model: &'w [u8],
    together: &'w Together,
    started: Vec<u8>,
    runs: Vec<u8>,
    traces: Vec<u8>,
}

impl<'w> Bench<'w> {
    fn new(engine: &Functions, model: &'w [u8], together: &'w Together) -> Bench<'w> {
        let mut run = vec![0; reference::saved_run::length(reference::limits::COMPONENTS)];
        let written = engine.start(model, &mut run);
        let started = run[..written.bytes as usize].repeat(together.count);
        let (runs, traces) = (started.clone(), vec![0; TRACE_BYTES * together.count]);
        Bench { model, together, started, runs, traces }
    }

    /// One pass over the calls from the started runs. Answers what the channels answered to each.
    fn pass(&mut self, engine: &Functions, way: Way, mut told: impl FnMut(usize, Advanced)) {
        self.runs.copy_from_slice(&self.started);
        let Together { count, allowance, .. } = *self.together;
        let length = self.runs.len() / count;
        for call in &self.together.calls {
            if way == Way::Together {
                let places = [Place { start: 0, length: call.bag.len() as u64 }; CHANNELS];
                let (count, t, bags) = (count as u64, call.t, &call.bag[..]);
                let asked = Asked { count, t, allowance, bags, places };
                let answer = black_box(engine.advance_channels(
                    self.model,
                    &mut self.runs,
                    &asked,
                    &mut self.traces,
                ));
                (0..self.together.count)
                    .for_each(|channel| told(channel, answer.channels[channel]));
                continue;
            }
            let runs = self.runs.chunks_exact_mut(length);
            let traces = self.traces.chunks_exact_mut(TRACE_BYTES);
            for (channel, (run, trace)) in runs.zip(traces).enumerate() {
                let answer = engine.advance(self.model, run, call.t, &call.bag, trace, &mut []);
                told(channel, black_box(answer));
            }
        }
    }

    /// The time of one pass, from so many.
    fn round(&mut self, engine: &Functions, way: Way, passes: u32) -> f64 {
        let begun = Instant::now();
        (0..passes).for_each(|_| self.pass(engine, way, |_, _| ()));
        begun.elapsed().as_secs_f64() * 1e9 / f64::from(passes)
    }
}

/// The nanoseconds that a call takes on each engine. It is an error where an engine answers otherwise than the
/// workload says, or leaves other bytes than the first.
pub fn measure(
    engines: &Engines,
    together: &Together,
    model: &[u8],
    way: Way,
    rounds: usize,
) -> Result<Vec<f64>, String> {
    let mut left = Vec::new();
    for (name, engine) in engines {
        let mut bench = Bench::new(engine, model, together);
        let mut other = None;
        bench.pass(engine, way, |channel, answer| {
            if answer.number != together.number {
                other = Some(format!("{}: {name} answers {answer:?} for {channel}", together.name));
            }
        });
        left.push((bench.runs, bench.traces));
        if let Some(other) = other {
            return Err(other);
        }
    }
    if left.iter().any(|buffers| *buffers != left[0]) {
        return Err(format!("{}: engines leave different bytes", together.name));
    }
    let mut bench = Bench::new(&engines[0].1, model, together);
    let passes = passes_in_a_round(|| bench.round(&engines[0].1, way, 1));
    let mut best = vec![f64::INFINITY; engines.len()];
    for round in 0..rounds {
        // Another engine begins in each round.
        for turn in round..round + engines.len() {
            let number = turn % engines.len();
            best[number] = best[number].min(bench.round(&engines[number].1, way, passes));
        }
    }
    Ok(best.into_iter().map(|best| best / together.calls.len() as f64).collect())
}
