//! Rearranging traces, measured: each there and back, on every engine, in one process.

use crate::column_passes::{PASSES, UNBROKEN};
use crate::measure::{passes_in_a_round, Engines};
use crate::report::{Line, Report};
use crate::workloads::traces;
use reference::columns::HEAD_BYTES;
use reference::engine::Rearranging;
use reference::little_endian::u32_at;
use reference::Written;
use std::hint::black_box;
use std::path::Path;
use std::time::Instant;

/// Engines that rearrange traces, by name; the yardsticks come first, and the subject last.
pub type Rearrangers = [(&'static str, Rearranging)];

/// Those of this build.
pub fn engines() -> Vec<(&'static str, Rearranging)> {
    vec![
        ("passes", PASSES),
        ("unbroken", UNBROKEN),
        #[cfg(feature = "library")]
        ("library", library::REARRANGING),
    ]
}

/// One of the two calls.
type Call = fn(&[u8], &mut [u8]) -> Written;

/// The columns of a trace.
fn columns_of(engine: &Rearranging, trace: &[u8]) -> Vec<u8> {
    let mut columns = vec![0; HEAD_BYTES + trace.len()];
    let written = (engine.trace_to_columns)(trace, &mut columns);
    assert_eq!(written, Written { number: 0, bytes: columns.len() as u64 });
    columns
}

/// Measures a trace there and back, a line for each. It is an error where engines differ.
pub fn lines(
    engines: &Rearrangers,
    name: &str,
    trace: &[u8],
    rounds: usize,
    report: &mut Report,
) -> Result<(), String> {
    let columns = columns_of(&PASSES, trace);
    let there: Vec<Call> = engines.iter().map(|(_, engine)| engine.trace_to_columns).collect();
    let back: Vec<Call> = engines.iter().map(|(_, engine)| engine.columns_to_trace).collect();
    for (way, calls, from, to) in
        [("there", there, trace, &columns[..]), ("back", back, &columns, trace)]
    {
        let best = measure(&calls, from, to, rounds)
            .map_err(|engine| format!("{name}: {} has another outcome", engines[engine].0))?;
        let kilobytes = trace.len() as f64 / 1e3;
        let nanoseconds: Vec<f64> = best.iter().map(|best| best / kilobytes).collect();
        let records = u32_at(&columns, 0).to_string();
        report.line(&Line {
            label: name,
            facts: &[way.into(), records, trace.len().to_string()],
            nanoseconds: &nanoseconds,
            rate: Some(1e12 / nanoseconds[report.subject]),
            held_to_all: true,
        });
    }
    Ok(())
}

/// The time of the best pass on each engine, in nanoseconds; the number of an engine that does not write
/// these bytes and no more.
fn measure(calls: &[Call], from: &[u8], to: &[u8], rounds: usize) -> Result<Vec<f64>, usize> {
    let mut out = vec![0; to.len()];
    for (engine, call) in calls.iter().enumerate() {
        out.fill(0xA5);
        let written = call(from, &mut out);
        if written != (Written { number: 0, bytes: to.len() as u64 }) || out != to {
            return Err(engine);
        }
    }
    let mut round = |call: &Call, passes: u32| {
        let begun = Instant::now();
        for _ in 0..passes {
            black_box(call(black_box(from), &mut out));
        }
        begun.elapsed().as_secs_f64() * 1e9 / f64::from(passes)
    };
    let passes = passes_in_a_round(|| round(&calls[0], 1));
    let mut best = vec![f64::INFINITY; calls.len()];
    for turn in 0..rounds {
        // Another engine begins in each round.
        for engine in (turn..turn + calls.len()).map(|engine| engine % calls.len()) {
            best[engine] = best[engine].min(round(&calls[engine], passes));
        }
    }
    Ok(best)
}

/// Writes the trace of a week and its columns to files, so that their sizes can be compared.
pub fn write_week(runs: &Engines, engines: &Rearrangers, folder: &Path) -> std::io::Result<()> {
    let ((_, runs), (_, engine)) = (&runs[runs.len() - 1], &engines[engines.len() - 1]);
    let trace = traces::of_days(runs, 7);
    let columns = columns_of(engine, &trace);
    std::fs::create_dir_all(folder)?;
    std::fs::write(folder.join("week.trace"), &trace)?;
    std::fs::write(folder.join("week.columns"), &columns)?;
    println!("{} records, {} bytes of trace", u32_at(&columns, 0), trace.len());
    Ok(())
}
