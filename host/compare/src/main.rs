//! Holds engines against each other: the reference on the nest, the reference on the flat form, the
//! flat machine, and with the feature `library` the proved static library. Traces are rearranged by the
//! reference, by the benchmark's passes over slices, and by the library.
//!
//! `compare --calls N --seed S` runs until N calls are compared; `--case K` repeats one case alone.
//! The run fails where an answer or a byte of a lent buffer differs, where a line of the papers does
//! not hold, and where a refusal number, a kind of transition, range, trace, feed or call on channels, or a
//! boundary was never met.
//! Each kind must be met at random too: a run of less than 30,000 calls may have too few random models.

mod arguments;
mod call;
mod calls_on_model;
mod cases;
mod channels;
#[path = "../../bench/src/column_passes.rs"]
mod column_passes;
mod columns;
mod comparison;
mod counts;
mod engine;
mod feeds;
mod laws;
mod lent;
mod models;
mod naive_routes;
mod notice;
mod random;
mod ranges;
mod relations;
mod rules_table;
mod runs;
mod special;
mod worked;
#[cfg(test)]
mod wrong_engines;

use comparison::Comparison;
use counts::Counts;
use random::Random;
use std::process::ExitCode;
use std::time::{Duration, Instant};

struct Arguments {
    calls: u64,
    seed: u64,
    case: Option<u64>,
}

fn arguments() -> Result<Arguments, String> {
    let mut arguments = Arguments { calls: 100_000, seed: 1, case: None };
    let mut words = std::env::args().skip(1);
    while let Some(word) = words.next() {
        let value = words.next().ok_or_else(|| format!("{word} wants a number"))?;
        let value: u64 = value.parse().map_err(|_| format!("{value} is no number"))?;
        match word.as_str() {
            "--calls" => arguments.calls = value,
            "--seed" => arguments.seed = value,
            "--case" => arguments.case = Some(value),
            _ => return Err(format!("{word} is not known")),
        }
    }
    Ok(arguments)
}

/// Runs one case; a panic in it says which one it was.
fn run_case(comparison: &mut Comparison, seed: u64, number: u64) -> Result<(), String> {
    let mut random = Random::for_case(seed, number);
    let told = TellOnPanic { seed, number };
    let outcome = cases::case(comparison, &mut random, number as usize);
    std::mem::forget(told);
    outcome.map_err(|fault| format!("seed {seed}, case {number}: {fault}"))
}

struct TellOnPanic {
    seed: u64,
    number: u64,
}

impl Drop for TellOnPanic {
    fn drop(&mut self) {
        eprintln!("in seed {}, case {}", self.seed, self.number);
    }
}

/// A run of hours says now and then where it is.
const TELL_EVERY: Duration = Duration::from_secs(60);

fn run(arguments: &Arguments, comparison: &mut Comparison) -> Result<(), String> {
    if let Some(case) = arguments.case {
        return run_case(comparison, arguments.seed, case);
    }
    worked::compare(comparison)?;
    let begun = Instant::now();
    let mut next_told = TELL_EVERY;
    let mut case = 0;
    while case < cases::fixed() as u64 || comparison.calls < arguments.calls {
        run_case(comparison, arguments.seed, case)?;
        case += 1;
        if begun.elapsed() >= next_told {
            let seconds = begun.elapsed().as_secs();
            let (calls, wanted) = (comparison.calls, arguments.calls);
            eprintln!("{calls} of {wanted} calls, {case} cases, after {seconds} s");
            next_told += TELL_EVERY;
        }
    }
    println!("{case} cases");
    Ok(())
}

fn main() -> ExitCode {
    let arguments = match arguments() {
        Ok(arguments) => arguments,
        Err(fault) => {
            eprintln!("{fault}");
            return ExitCode::FAILURE;
        }
    };
    let subjects = engine::subjects();
    let rearrangers = engine::rearrangers();
    let names: Vec<&str> = subjects.iter().map(|subject| subject.name).collect();
    println!("seed {}, engines: {}", arguments.seed, names.join("; "));
    let names: Vec<&str> = rearrangers.iter().map(|(name, _)| *name).collect();
    println!("traces rearranged by the reference; {}", names.join("; "));
    let counts = Counts::new(cases::names());
    let mut comparison = Comparison::new(subjects, rearrangers, counts);
    let begun = Instant::now();
    if let Err(fault) = run(&arguments, &mut comparison) {
        eprintln!("DIFFERENT: {fault}");
        return ExitCode::FAILURE;
    }
    let Comparison { calls, calls_in_turn, calls_about_channels, rearranged, .. } = comparison;
    let seconds = begun.elapsed().as_secs_f64();
    println!(
        "{calls} calls on models, {calls_in_turn} of feeds in turn, {calls_about_channels} about channels and \
         {rearranged} on traces compared in {seconds:.1} s"
    );
    if arguments.case.is_some() {
        return ExitCode::SUCCESS;
    }
    comparison.counts.print();
    let faults = comparison.counts.faults();
    faults.iter().for_each(|fault| eprintln!("NOT ENOUGH: {fault}"));
    if faults.is_empty() {
        println!("all engines agree, and everything was met");
        ExitCode::SUCCESS
    } else {
        ExitCode::FAILURE
    }
}
