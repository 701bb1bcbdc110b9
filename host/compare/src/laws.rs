//! What the papers say of every call, tested on the outcome itself. A mistake that all engines share
//! shows here and nowhere else.

use crate::call::{Answer, Call};
use crate::channels;
use crate::feeds;
use crate::ranges;
#[cfg(test)]
use reference::examples::{relayed_hold, tick_among_strays};
use reference::limits::{
    ATOMIC_BAG, HIGHEST_PORT, NO_RULE, ROOT_BAG, STEPS_OF_AN_INSTANT, UNBOUNDED,
};
use reference::lit_rules;
use reference::little_endian::{u16_at, u64_at};
use reference::model::Model;
use reference::observed::Observed;
use reference::records::Message;
use reference::saved_run::{self, AtomicRun, SavedRun};
use reference::trace::HEAD_BYTES;
use reference::Advanced;

/// The run buffer, the lent trace and the lent table of rules, before or after a call.
#[derive(PartialEq)]
pub struct Buffers<'b> {
    pub run: &'b [u8],
    pub trace: &'b [u8],
    pub rules: &'b [u8],
}

pub fn holds(condition: bool, what: &str) -> Result<(), String> {
    condition.then_some(()).ok_or_else(|| format!("this does not hold: {what}"))
}

/// Tests an outcome on a model, or on a refused file where there is none.
pub fn test(
    model: Option<&Model>,
    call: &Call,
    answer: &Answer,
    before: &Buffers,
    after: &Buffers,
) -> Result<(), String> {
    let advances = matches!(answer, Answer::Advanced(_) | Answer::Fed(_));
    let undone_instant = advances && matches!(answer.number(), 13 | 15);
    if answer.number() != 0 && !undone_instant {
        holds(answer.is_otherwise_zero(), "a refusal comes with zeros")?;
        return holds(before == after, "a refusal writes no byte");
    }
    let model = model.ok_or("a refused file gave an outcome")?;
    if let (Call::Channels(call), Answer::Channels(answer)) = (call, answer) {
        return channels::laws::test(model, call, answer, before, after);
    }
    let length = saved_run::length(model.atomics().len());
    holds(before.run[length..] == after.run[length..], "bytes beyond the run stay")?;
    let fitting = SavedRun::read_fitting(model, after.run);
    let run_after = fitting.map_err(|_| "this does not hold: the run fits afterwards")?;
    match (call, answer) {
        (Call::Start, Answer::Written(answer)) => {
            let first = SavedRun::first(model).encode();
            holds(after.run[..length] == first, "start writes the first run")?;
            holds(answer.bytes == length as u64, "start answers the bytes of the run")
        }
        (Call::Advance { t, bag, .. }, Answer::Advanced(answer)) => {
            test_advance(*t, !bag.is_empty(), answer, before, after)?;
            test_lit_rules(model, answer.instants, &run_after, before.rules, after.rules)?;
            ranges::test_lit_ranges(model, answer, before.run, &run_after, after.rules)?;
            test_phases_without_rules(model, answer.steps, before.run, &run_after)
        }
        (Call::Feed { end, feed, .. }, Answer::Fed(answer)) => {
            feeds::laws::test(*end, feed, answer, before, after)?;
            test_phases_without_rules(model, answer.steps, before.run, &run_after)
        }
        (Call::Read { .. }, Answer::Reading(_)) => {
            holds(before.run == after.run, "reading writes nothing")
        }
        _ => Err("an answer of another call".into()),
    }
}

/// Tests what the reference met on its way to an outcome, be it in an instant left undone.
pub fn test_bags(observed: &Observed) -> Result<(), String> {
    let (atomic, root) = (observed.largest_atomic_bag, observed.largest_root_bag);
    holds(atomic <= ATOMIC_BAG, "no bag of an atomic has more than 16,384 messages")?;
    holds(root <= ROOT_BAG, "no bag at the root has more than 4,096 messages")
}

/// What holds of an advance that was not refused, be it that of a channel.
pub fn test_advance(
    t: u64,
    bag_given: bool,
    answer: &Advanced,
    before: &Buffers,
    after: &Buffers,
) -> Result<(), String> {
    let (open_before, open_after) = (u64_at(before.run, 0), u64_at(after.run, 0));
    if answer.number == 0 {
        holds(open_after == t + 1, "on success the open moment is t + 1")?;
        holds(answer.instants > 0 || !bag_given, "a given bag is a step")?;
    } else {
        holds(open_after <= t, "the instant left undone is not before the open moment")?;
        holds(
            (answer.instants == 0) == (open_after == open_before),
            "the open moment moves with the instants done",
        )?;
    }
    test_instants(answer, before, after)
}

/// What holds of the instants done between two open moments, be it in one call or in several.
pub fn test_instants(answer: &Advanced, before: &Buffers, after: &Buffers) -> Result<(), String> {
    let used = answer.trace_bytes as usize;
    holds(before.trace[used..] == after.trace[used..], "bytes past the trace's length stay")?;
    let (open_before, open_after) = (u64_at(before.run, 0), u64_at(after.run, 0));
    if answer.instants == 0 {
        holds(answer.steps == 0 && used == 0, "without an instant there is no step and no record")?;
        let same = before.run[8..] == after.run[8..];
        holds(same, "without an instant no atomic changes")?;
    }
    holds(answer.steps >= answer.instants, "an instant has a step")?;
    holds(
        answer.steps <= STEPS_OF_AN_INSTANT * answer.instants,
        "an instant has 1,024 steps at most",
    )?;
    holds(answer.instants <= open_after - open_before, "each instant has its own moment")?;
    let moments = moments_of_records(&after.trace[..used])?;
    holds(moments.first().is_none_or(|&moment| moment >= open_before), "records are of this call")?;
    holds(
        moments.last().is_none_or(|&moment| moment < open_after),
        "records are of done instants",
    )?;
    holds(moments.len() as u64 <= answer.instants, "records stand for steps of instants done")
}

/// The table of rules stays where there is nothing to tell or no room for it. An entry names a rule of its
/// atomic, which has begun a stay in the last instant.
fn test_lit_rules(
    model: &Model,
    instants: u64,
    run_after: &SavedRun,
    before: &[u8],
    after: &[u8],
) -> Result<(), String> {
    let atomics = model.atomics();
    let length = lit_rules::length(atomics.len());
    if instants == 0 || before.len() < length {
        return holds(before == after, "without an instant, or too short, the table stays");
    }
    holds(before[length..] == after[length..], "bytes past the table's entries stay")?;
    let last_instant = run_after.atomics.iter().map(|atomic| atomic.last).max();
    for (rank, (atomic, now)) in atomics.into_iter().zip(&run_after.atomics).enumerate() {
        let entry = u16_at(after, lit_rules::length(rank));
        if entry != NO_RULE {
            let rule = model.rules.get(usize::from(entry));
            let is_its_own = rule.is_some_and(|rule| usize::from(rule.component) == atomic);
            holds(is_its_own, "an entry names a rule of its atomic")?;
            holds(Some(now.last) == last_instant, "a rule that is lit began a stay just then")?;
        }
    }
    Ok(())
}

/// Whatever reaches an atomic in a phase that no rule names, it stays there until it is due, and then
/// takes the next phase. What becomes of it in a phase with a rule is not followed.
pub fn test_phases_without_rules(
    model: &Model,
    steps: u64,
    before: &[u8],
    after: &SavedRun,
) -> Result<(), String> {
    let before = SavedRun::read_fitting(model, before);
    let before = before.map_err(|_| "a run that does not fit was advanced")?;
    let standings = before.atomics.iter().zip(&after.atomics);
    for (atomic, (before, now)) in model.atomics().into_iter().zip(standings) {
        let rules = model.rules.iter().filter(|rule| usize::from(rule.component) == atomic);
        let named: Vec<u8> = rules.map(|rule| rule.phase).collect();
        let phases = model.phases_of(atomic);
        let mut on_its_own = *before;
        let mut left = steps;
        while !named.contains(&on_its_own.phase) {
            let phase = &phases[usize::from(on_its_own.phase)];
            let due = on_its_own.last + u64::from(phase.advance);
            if phase.advance == UNBOUNDED || due >= after.open {
                holds(*now == on_its_own, "a phase without rules lasts until it is due")?;
                break;
            }
            // It was due in an instant that was done, and so in one of the steps.
            holds(left > 0, "an atomic has a transition in each step where it is due")?;
            left -= 1;
            on_its_own = AtomicRun { phase: phase.next_phase, last: due };
        }
    }
    Ok(())
}

/// The distinct moments of a trace, after testing that it is one.
fn moments_of_records(trace: &[u8]) -> Result<Vec<u64>, String> {
    let mut moments: Vec<u64> = Vec::new();
    let mut previous = None;
    let mut rest = trace;
    while !rest.is_empty() {
        holds(rest.len() >= HEAD_BYTES, "a record is whole")?;
        let (moment, step) = (u64_at(rest, 0), u16_at(rest, 8));
        let count = usize::from(u16_at(rest, 10));
        holds(previous < Some((moment, step)), "moments and steps rise")?;
        holds(u64::from(step) < STEPS_OF_AN_INSTANT, "steps are below 1,024")?;
        // No call tests the bag at the root: this follows from the limits of a model.
        holds((1..=ROOT_BAG).contains(&count), "a record has 1 to 4,096 messages")?;
        rest = &rest[HEAD_BYTES..];
        holds(rest.len() >= count * Message::BYTES, "a record has its messages")?;
        let (bytes, after) = rest.split_at(count * Message::BYTES);
        let messages: Vec<Message> =
            bytes.chunks_exact(Message::BYTES).map(Message::read).collect();
        holds(messages.windows(2).all(|pair| pair[0] <= pair[1]), "messages do not fall")?;
        holds(messages.iter().all(|m| m.port <= HIGHEST_PORT), "ports are 0 to 3")?;
        rest = after;
        previous = Some((moment, step));
        if moments.last() != Some(&moment) {
            moments.push(moment);
        }
    }
    Ok(moments)
}

#[test]
fn a_stay_begun_afresh_by_a_stray_is_told() {
    let model = tick_among_strays(2, 0).model();
    let run = |open, last| SavedRun { open, atomics: vec![AtomicRun { phase: 0, last }] }.encode();
    // Open moment and last moment, then t, and what the last moment is right and wrong there.
    for (open, last, t, right, wrong) in
        [(0, 0, 3, 0, 3), (0, 0, 5, 5, 3), (3, 2, 4, 2, 4), (6, 5, 13, 10, 13)]
    {
        let call = Call::Advance { t, bag: vec![0; 3], trace: Vec::new(), rules: Vec::new() };
        let answer = Advanced { number: 0, instants: 2, steps: 2, trace_bytes: 0 };
        let law = |last_after| {
            let before = Buffers { run: &run(open, last), trace: &[], rules: &[] };
            let after = Buffers { run: &run(t + 1, last_after), trace: &[], rules: &[] };
            test(Some(&model), &call, &Answer::Advanced(answer), &before, &after)
        };
        assert_eq!(law(right), Ok(()));
        let told = "this does not hold: a phase without rules lasts until it is due";
        assert_eq!(law(wrong), Err(told.into()));
    }
}

#[test]
fn a_bag_past_the_largest_is_told() {
    let law = |messages: usize| {
        let mut observed = Observed::default();
        observed.external_part(0, messages, false);
        test_bags(&observed)
    };
    assert_eq!(law(16_384), Ok(()));
    let told = "this does not hold: no bag of an atomic has more than 16,384 messages";
    assert_eq!(law(16_385), Err(told.into()));
    let law = |messages: usize| {
        let mut observed = Observed::default();
        observed.instant(1, true, false, messages);
        test_bags(&observed)
    };
    assert_eq!(law(4_096), Ok(()));
    let told = "this does not hold: no bag at the root has more than 4,096 messages";
    assert_eq!(law(4_097), Err(told.into()));
}

#[test]
fn a_table_that_cannot_be_is_told() {
    let model = relayed_hold(1, 0).model();
    // The relay had its last transition in an earlier instant, the hold in this one.
    let run = SavedRun { open: 7, atomics: [4, 6].map(|last| AtomicRun { phase: 1, last }).into() };
    let law = |instants: u64, before: &[u8], after: &[u8]| {
        test_lit_rules(&model, instants, &run, before, after)
    };
    let lit = |relay: u8, hold: u8| [relay, 255, hold, 0, 9];
    let right = [255, 255, 4, 0, 9];
    assert_eq!(law(1, &[9; 5], &right), Ok(()));
    assert_eq!(law(1, &[9; 3], &[9; 3]), Ok(()));
    assert_eq!(law(0, &[9; 5], &[9; 5]), Ok(()));
    for (instants, before, after) in [
        (0, &[9; 5][..], &right[..]),
        (1, &[9; 3], &right[..3]),
        (1, &[8; 5], &right),
        (1, &[9; 5], &lit(254, 4)),
        (1, &[9; 5], &lit(255, 2)),
        (1, &[9; 5], &lit(255, 8)),
        (1, &[9; 5], &[0, 0, 4, 0, 9]),
    ] {
        assert!(law(instants, before, after).is_err(), "{after:?} after {before:?}");
    }
}
