//! Measures engines with the same interface in one process: the proved library, where it is linked
//! (feature `library`), against two optimised, unverified ones. `pulled` has the same algorithm,
//! `flat rows` compiles routes to flat rows and is the limit. A feed is measured as one call and by the calls
//! that it stands for, eight channels as one call and by an advance for each. Traces are rearranged by the library against two others, which go over the bytes as
//! often: `passes` stops at a message that falls, `unbroken` judges every bag to its end.
//!
//! `bench/run.sh` builds and runs it. `--rounds N` takes the best of N rounds, `--only TEXT` measures
//! only what has TEXT in its name. `--write FOLDER` measures nothing, and writes the trace of a week and
//! its columns there (`bench/sizes.sh`).

mod channels;
mod column_passes;
mod columns;
mod engine;
mod flat_rows;
mod measure;
mod pulled;
mod report;
mod shared;
mod workloads;

// The tests hold both engines against the reference on the comparison's models and calls. The comparison
// itself holds `passes` and `unbroken` against it.
#[cfg(test)]
mod agreement;
#[cfg(test)]
#[allow(dead_code)]
#[path = "../../compare/src/arguments.rs"]
mod arguments;
#[cfg(test)]
#[allow(dead_code)]
#[path = "../../compare/src/call.rs"]
mod call;
#[cfg(test)]
#[path = "../../compare/src/channels/arguments.rs"]
mod channel_arguments;
#[cfg(test)]
#[allow(dead_code)]
#[path = "../../compare/src/feeds/arguments.rs"]
mod feed_arguments;
#[cfg(test)]
#[path = "../../compare/src/lent.rs"]
mod lent;
#[cfg(test)]
#[allow(dead_code)]
#[path = "../../compare/src/models/mod.rs"]
mod models;
#[cfg(test)]
#[path = "../../compare/src/random.rs"]
mod random;
#[cfg(test)]
#[allow(dead_code)]
#[path = "../../compare/src/runs.rs"]
mod runs;

use channels::Way;
use columns::Rearrangers;
use measure::{measure, Engines};
use reference::flatten::flat_form;
use report::{Line, Report};
use std::path::PathBuf;
use std::process::ExitCode;
use std::time::Instant;
use workloads::growth::Series;
use workloads::Workload;

struct Arguments {
    rounds: usize,
    only: String,
    write: Option<PathBuf>,
}

fn arguments() -> Result<Arguments, String> {
    let mut arguments = Arguments { rounds: 25, only: String::new(), write: None };
    let mut words = std::env::args().skip(1);
    while let Some(word) = words.next() {
        let value = words.next().ok_or_else(|| format!("{word} wants a value"))?;
        match word.as_str() {
            "--rounds" => {
                arguments.rounds = value.parse().map_err(|_| format!("{value} is no number"))?
            }
            "--only" => arguments.only = value,
            "--write" => arguments.write = Some(value.into()),
            _ => return Err(format!("{word} is not known")),
        }
    }
    Ok(arguments)
}

impl Arguments {
    fn want(&self, name: &str) -> bool {
        name.contains(&self.only)
    }
}

/// The benchmark on its way.
struct Run<'r> {
    engines: &'r Engines,
    rearrangers: &'r Rearrangers,
    arguments: &'r Arguments,
    report: Report,
    by_column: Report,
}

impl Run<'_> {
    /// A table of workloads, each on its own model and on the flat form.
    fn table(&mut self, workloads: &[Workload], by: By) -> Result<(), String> {
        let arguments = self.arguments;
        for workload in workloads.iter().filter(|workload| arguments.want(&workload.name)) {
            let flat = workload.flat_model();
            for (form, model) in [("nest", &workload.model), ("flat", &flat)] {
                if form == "nest" && *model == flat {
                    continue;
                }
                let measured = measure(self.engines, workload, model, arguments.rounds)?;
                let (count, nanoseconds) = match by {
                    By::Step => (measured.steps, measured.per_step()),
                    By::Call => (measured.calls, measured.per_call()),
                };
                let rate = 1e9 / nanoseconds[self.report.subject];
                let facts = [form.into(), workload.routes().to_string(), count.to_string()];
                self.report.line(&Line {
                    label: &workload.name,
                    facts: &facts,
                    nanoseconds: &nanoseconds,
                    rate: Some(rate),
                    held_to_all: *model == flat,
                });
            }
        }
        Ok(())
    }

    /// Feeds on either form of their models, each as one call; below that, what its calls take one by one,
    /// and how many times as much that is.
    fn feeds(&mut self) -> Result<(), String> {
        let facts = ["form", "routes", "bags"];
        self.report.head("Feeds", &facts, "ns a bag; ratios of speed", Some("bags/s"));
        let (engines, arguments) = (self.engines, self.arguments);
        for workload in workloads::feeds::all().iter().filter(|feed| arguments.want(&feed.name)) {
            let flat = workload.flat_model();
            for (form, model) in [("nest", &workload.model), ("flat", &flat)] {
                if form == "nest" && *model == flat {
                    continue;
                }
                let fed = measure(engines, workload, model, arguments.rounds)?;
                let by_calls = measure(engines, &workload.by_calls(), model, arguments.rounds)?;
                let (routes, bags) = (workload.routes().to_string(), fed.calls.to_string());
                let (fed, by_calls) = (fed.per_call(), by_calls.per_call());
                self.report.line(&Line {
                    label: &workload.name,
                    facts: &[form.into(), routes, bags],
                    nanoseconds: &fed,
                    rate: Some(1e9 / fed[self.report.subject]),
                    held_to_all: *model == flat,
                });
                self.report.below("  by its calls", facts.len(), by_calls.iter().copied());
                let times = by_calls.iter().zip(&fed).map(|(by_calls, fed)| by_calls / fed);
                self.report.below("  so many times as much", facts.len(), times);
            }
        }
        Ok(())
    }

    /// Channels on either form of their models, each call as one; below that, what an advance for each channel
    /// takes, and how many times as much that is. Then what an instant costs that is left undone for want of steps.
    fn channels(&mut self) -> Result<(), String> {
        let facts = ["form", "count", "calls"];
        self.report.head("Channels", &facts, "ns a call; ratios of speed", Some("calls/s"));
        let (engines, arguments) = (self.engines, self.arguments);
        for together in workloads::channels::all().iter().filter(|all| arguments.want(all.name)) {
            let (nest, flat) = (together.model.file(), flat_form(&together.model.model()).encode());
            for (form, model) in [("nest", &nest), ("flat", &flat)] {
                if form == "nest" && *model == flat {
                    continue;
                }
                let [at_once, one_by_one] = [Way::Together, Way::OneByOne]
                    .map(|way| channels::measure(engines, together, model, way, arguments.rounds));
                let (at_once, one_by_one) = (at_once?, one_by_one?);
                let counts = [together.count, together.calls.len()].map(|count| count.to_string());
                self.report.line(&Line {
                    label: together.name,
                    facts: &[form.into(), counts[0].clone(), counts[1].clone()],
                    nanoseconds: &at_once,
                    rate: Some(1e9 / at_once[self.report.subject]),
                    held_to_all: *model == flat,
                });
                self.report.below(
                    "  by an advance for each",
                    facts.len(),
                    one_by_one.iter().copied(),
                );
                let times = one_by_one
                    .iter()
                    .zip(&at_once)
                    .map(|(one_by_one, at_once)| one_by_one / at_once);
                self.report.below("  so many times as much", facts.len(), times);
            }
        }
        self.undone(facts.len())
    }

    /// The cost of an instant of 1,024 steps that is done, and of one that is worked out and left undone.
    fn undone(&mut self, facts: usize) -> Result<(), String> {
        let all = workloads::channels::undone();
        if !self.arguments.want(all[2].name) {
            return Ok(());
        }
        let mut taken = Vec::new();
        for together in &all {
            let model = together.model.file();
            let (way, rounds) = (Way::Together, self.arguments.rounds);
            taken.push(channels::measure(self.engines, together, &model, way, rounds)?);
            self.report.below(together.name, facts, taken[taken.len() - 1].iter().copied());
        }
        let [without, done, undone] = &taken[..] else { unreachable!("three of them") };
        let parts = undone.iter().zip(done).zip(without);
        let parts = parts.map(|((undone, done), without)| (undone - without) / (done - without));
        self.report.below("  undone, of one that is done", facts, parts);
        Ok(())
    }

    fn series(&mut self, series: &Series) -> Result<(), String> {
        let mut lines = Vec::new();
        for (size, workload) in &series.points {
            let measured = measure(self.engines, workload, &workload.model, self.arguments.rounds)?;
            let nanoseconds = measured.per_step();
            self.report.line(&Line {
                label: series.name,
                facts: &[size.to_string()],
                nanoseconds: &nanoseconds,
                rate: None,
                held_to_all: workload.model == workload.flat_model(),
            });
            lines.push((*size, nanoseconds));
        }
        let (first, last) = (&lines[0], &lines[lines.len() - 1]);
        self.report.growth((first.0, &first.1), (last.0, &last.1));
        Ok(())
    }

    /// Traces there and back.
    fn columns(&mut self) -> Result<(), String> {
        let facts = ["way", "records", "bytes"];
        let unit = "ns a KB of trace; ratios of speed";
        self.by_column.head("Columns", &facts, unit, Some("bytes/s"));
        let arguments = self.arguments;
        for named in workloads::traces::ALL.iter().filter(|named| arguments.want(named.name)) {
            let trace = named.trace(&self.engines[self.report.subject].1);
            let rearrangers = self.rearrangers;
            columns::lines(rearrangers, named.name, &trace, arguments.rounds, &mut self.by_column)?;
        }
        Ok(())
    }

    fn all(&mut self) -> Result<(), String> {
        let facts = ["form", "routes", "steps"];
        self.report.head("Steps", &facts, "ns a step; ratios of speed", Some("steps/s"));
        self.table(&workloads::steps(), By::Step)?;
        let facts = ["form", "routes", "calls"];
        self.report.head("One call", &facts, "ns a call; ratios of speed", Some("calls/s"));
        self.table(&workloads::short_calls(), By::Call)?;
        self.feeds()?;
        self.channels()?;
        self.report.head("Growth", &["size"], "ns a step; ratios of speed", None);
        for series in workloads::growth::all() {
            if self.arguments.want(series.name) {
                self.series(&series)?;
            }
        }
        self.columns()
    }
}

/// The exit status of writing files.
fn written(outcome: std::io::Result<()>) -> ExitCode {
    match outcome {
        Ok(()) => ExitCode::SUCCESS,
        Err(fault) => {
            eprintln!("{fault}");
            ExitCode::FAILURE
        }
    }
}

/// What a time is divided by.
#[derive(Clone, Copy)]
enum By {
    Step,
    Call,
}

fn main() -> ExitCode {
    let arguments = match arguments() {
        Ok(arguments) => arguments,
        Err(fault) => {
            eprintln!("{fault}");
            return ExitCode::FAILURE;
        }
    };
    let (engines, rearrangers) = (engine::engines(), columns::engines());
    if let Some(folder) = &arguments.write {
        return written(columns::write_week(&engines, &rearrangers, folder));
    }
    let begun = Instant::now();
    println!("best of {} rounds, engines in turn within each round; caches warm", arguments.rounds);
    println!(
        "the run buffer is put back before each pass over the calls; trace and rules are not cleared"
    );
    if cfg!(debug_assertions) {
        println!("CHECKS ARE ON: these figures mean nothing; use bench/run.sh");
    }
    let mut run = Run {
        engines: &engines,
        rearrangers: &rearrangers,
        arguments: &arguments,
        report: Report::new(engines.iter().map(|(name, _)| *name).collect(), " on flat models"),
        by_column: Report::new(rearrangers.iter().map(|(name, _)| *name).collect(), ""),
    };
    match run.all() {
        Ok(()) => {
            println!("\n{:.1} s\n", begun.elapsed().as_secs_f64());
            run.report.goals();
            run.by_column.goals();
            if !cfg!(feature = "library") {
                println!("The proved library is not linked, so no goal is tested.");
            }
            ExitCode::SUCCESS
        }
        Err(fault) => {
            eprintln!("{fault}");
            ExitCode::FAILURE
        }
    }
}
