//! What the papers say of every call on channels, tested on the outcome itself.

use super::part;
use crate::call::OnChannels;
use crate::laws::{holds, test_advance, test_phases_without_rules, Buffers};
use reference::limits::UNBOUNDED;
use reference::model::Model;
use reference::saved_run::{self, SavedRun};
use reference::{Advanced, Asked, Channels};

/// Tests the outcome of a call whose own number is 0.
pub fn test(
    model: &Model,
    call: &OnChannels,
    answer: &Channels,
    before: &Buffers,
    after: &Buffers,
) -> Result<(), String> {
    let asked = call.asked();
    let count = asked.channels().ok_or("channels that 21 refuses were answered")?;
    let absent = &answer.channels[count..];
    holds(absent.iter().all(|entry| *entry == Advanced::refused(0)), "absent channels are zeros")?;
    for (before, after) in [(before.run, after.run), (before.trace, after.trace)] {
        let parts = before.len() / count * count;
        holds(before[parts..] == after[parts..], "bytes past the last part stay")?;
    }
    let mut has = 0;
    for (channel, advanced) in answer.channels[..count].iter().enumerate() {
        has += asked.share();
        holds(advanced.steps <= has, "a channel spends what it has, and no more")?;
        has -= advanced.steps;
        let own = |buffers: &Buffers| -> [Vec<u8>; 2] {
            [buffers.run, buffers.trace].map(|buffer| part(buffer, count, channel).to_vec())
        };
        let ([run, trace], [run_after, trace_after]) = (own(before), own(after));
        let before = Buffers { run: &run, trace: &trace, rules: &[] };
        let after = Buffers { run: &run_after, trace: &trace_after, rules: &[] };
        test_channel(model, &asked, channel, advanced, &before, &after)
            .map_err(|law| format!("{law}, in channel {channel}"))?;
    }
    let total: u64 = answer.channels.iter().map(|advanced| advanced.steps).sum();
    holds(total <= asked.allowance, "all channels together keep to the allowance")
}

/// Tests what became of one channel, on its own parts.
fn test_channel(
    model: &Model,
    asked: &Asked,
    channel: usize,
    advanced: &Advanced,
    before: &Buffers,
    after: &Buffers,
) -> Result<(), String> {
    if matches!(advanced.number, 10..=12) {
        holds(*advanced == Advanced::refused(advanced.number), "a refusal comes with zeros")?;
        return holds(before == after, "a refusal writes no byte");
    }
    holds(matches!(advanced.number, 0 | 13 | 15 | 22), "a channel has a number of its own")?;
    let bag = asked.places[channel].bag_among(asked.bags);
    let given = !bag.ok_or("a bag past the end was taken")?.is_empty();
    let length = saved_run::length(model.atomics().len());
    holds(before.run[length..] == after.run[length..], "bytes beyond the run stay")?;
    let run_after = SavedRun::read_fitting(model, after.run);
    let run_after = run_after.map_err(|_| "this does not hold: the run fits afterwards")?;
    test_advance(asked.t, given, advanced, before, after)?;
    test_phases_without_rules(model, advanced.steps, before.run, &run_after)?;
    let has_instant = given || next_due(model, before.run).is_some_and(|due| due <= asked.t);
    let does_one = advanced.instants > 0 || matches!(advanced.number, 13 | 15);
    holds(does_one || !has_instant, "a channel with an instant due does at least one")
}

/// The next due moment of a run that fits.
pub fn next_due(model: &Model, run: &[u8]) -> Option<u64> {
    let saved = SavedRun::read_fitting(model, run).ok()?;
    let due = |(atomic, now): (usize, &saved_run::AtomicRun)| {
        let advance = model.phases_of(atomic)[usize::from(now.phase)].advance;
        (advance != UNBOUNDED).then(|| now.last + u64::from(advance))
    };
    model.atomics().into_iter().zip(&saved.atomics).filter_map(due).min()
}

#[cfg(test)]
use reference::{builder::Builder, Place};

#[test]
fn an_outcome_that_cannot_be_is_told() {
    // Two channels of a model without atomics, open at 3, advanced to 5; the second has a bag of one message.
    let model = Builder::new().model();
    let run = |open: u8| [open, 0, 0, 0, 0, 0, 0, 0, 0, 0];
    let mut places = [Place::default(); 8];
    places[1].length = 3;
    let call = OnChannels {
        count: 2,
        t: 5,
        allowance: 2_049,
        bags: vec![3, 0, 0],
        places,
        traces: vec![7; 3],
    };
    let law = |first: [u64; 2], open: u8, second: [u64; 2], open_of_second: u8, beyond: u8| {
        let before = [&run(3)[..], &run(3), &[9]].concat();
        let after = [&run(open)[..], &run(open_of_second), &[beyond]].concat();
        let mut answer = Channels::refused(0);
        for (entry, [number, steps]) in answer.channels.iter_mut().zip([first, second]) {
            *entry = Advanced { number, instants: steps.min(1), steps, trace_bytes: 0 };
        }
        let before = Buffers { run: &before, trace: &call.traces, rules: &[] };
        let after = Buffers { run: &after, trace: &call.traces, rules: &[] };
        test(&model, &call, &answer, &before, &after)
    };
    assert_eq!(law([0, 0], 6, [0, 1], 6, 9), Ok(()));
    assert_eq!(law([10, 0], 3, [15, 0], 3, 9), Ok(()));
    for (first, open, second, open_of_second, beyond) in [
        ([0, 0], 6, [0, 1], 6, 8),
        ([0, 0], 5, [0, 1], 6, 9),
        ([11, 0], 6, [0, 1], 6, 9),
        ([12, 1], 3, [0, 1], 6, 9),
        ([14, 0], 3, [0, 1], 6, 9),
        ([0, 0], 6, [22, 0], 3, 9),
        ([0, 0], 6, [0, 0], 6, 9),
        ([0, 1_025], 6, [0, 1], 6, 9),
        ([0, 0], 6, [0, 2_049], 6, 9),
    ] {
        let found = law(first, open, second, open_of_second, beyond);
        assert!(found.is_err(), "{first:?} at {open}, {second:?} at {open_of_second}, {beyond}");
    }
}
