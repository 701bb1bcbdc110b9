//! What the calls met at the ends of elapsed ranges, which calls were made on half-open models, and what the
//! papers say of a range whose rule is lit, tested on the outcome itself.

use crate::call::{Call, Kind};
use crate::counts::Counts;
use crate::laws::holds;
use reference::limits::{NO_RULE, UNBOUNDED};
use reference::lit_rules;
use reference::little_endian::u16_at;
use reference::model::Model;
use reference::observed::Observed;
use reference::range_ends::RangeEnds;
use reference::ranges::Ranges;
use reference::records::{Component, Coupling, Phase, Rule};
use reference::saved_run::{AtomicRun, SavedRun};
use reference::Advanced;

/// The boundaries that `notice` looks for.
pub const NAMES: [&str; 2] = [
    "half-open: no end, elapsed time of 4,294,967,295",
    "half-open: no end, elapsed time above 4,294,967,295",
];

/// What searches met on the tick of an end, by name. In a half-open model none is at a high end where no time
/// has elapsed, as in order 0.
pub fn kinds(ends: &RangeEnds) -> impl Iterator<Item = (&'static str, u64)> {
    let [external, order_0, order_1] = ends.high_end_decided;
    let [to_another, _, to_another_in_order_1] = ends.high_end_left_to_another;
    let [to_none, _, to_none_in_order_1] = ends.high_end_left_to_none;
    let kinds = [
        ("inclusive: high end decides", external),
        ("inclusive: high end decides, order 0", order_0),
        ("inclusive: high end decides, order 1", order_1),
        ("half-open: high end left to another rule", to_another),
        ("half-open: high end left to another rule, order 1", to_another_in_order_1),
        ("half-open: high end left to none", to_none),
        ("half-open: high end left to none, order 1", to_none_in_order_1),
        ("half-open: last tick before the high end decides", ends.last_tick_decided),
        ("half-open: low end decides", ends.low_end_decided),
        ("half-open: no end decides", ends.no_end_decided),
    ];
    kinds.into_iter()
}

/// Calls on accepted half-open models, by kind.
const CALLS: [(Kind, &str); 5] = [
    (Kind::Start, "half-open: start"),
    (Kind::Advance, "half-open: advance"),
    (Kind::AdvanceFeed, "half-open: advance_feed"),
    (Kind::Read, "half-open: read"),
    (Kind::Flatten, "half-open: flatten"),
];

/// Every kind of call that is looked for, with 1 for the one made.
pub fn calls(made: Option<Kind>) -> impl Iterator<Item = (&'static str, u64)> {
    CALLS.into_iter().map(move |(kind, name)| (name, u64::from(made == Some(kind))))
}

/// Counts what a call on a half-open model met, where it was not refused.
pub fn notice(
    counts: &mut Counts,
    model: Option<&Model>,
    call: &Call,
    number: u64,
    observed: &Observed,
) {
    if number != 0 || model.is_none_or(|model| model.ranges != Ranges::HalfOpen) {
        return;
    }
    counts.kinds(calls(Some(call.kind())));
    let RangeEnds { no_end_decided_at_its_number, no_end_decided_past_its_number, .. } =
        observed.range_ends;
    let met = [no_end_decided_at_its_number, no_end_decided_past_its_number];
    let met = met.into_iter().zip(NAMES).filter(|(count, _)| *count > 0);
    met.for_each(|(_, name)| counts.meet(name));
}

/// What follows the four sections of a file, by their counts; none where they are cut.
pub fn after_the_couplings(file: &[u8]) -> Option<&[u8]> {
    [Component::BYTES, Phase::BYTES, Rule::BYTES, Coupling::BYTES].iter().try_fold(
        file,
        |rest, width| {
            let count = usize::from(u16_at(rest.get(..2)?, 0));
            rest.get(2 + width * count..)
        },
    )
}

/// "Flattening copies the section": tests it on the bytes, and counts those of half-open models.
pub fn test_flat_form(counts: &mut Counts, file: &[u8], flat: &[u8]) -> Result<(), String> {
    let section = after_the_couplings(file);
    holds(section == after_the_couplings(flat), "flattening copies the section")?;
    if section.is_some_and(|section| !section.is_empty()) {
        counts.kinds(calls(Some(Kind::Flatten)));
    }
    Ok(())
}

/// Where a call did one step and no more, each rule that is lit can be held against where its atomic stood
/// before: it was searched for in that phase, and the elapsed time lies in its range.
pub fn test_lit_ranges(
    model: &Model,
    answer: &Advanced,
    before: &[u8],
    after: &SavedRun,
    rules: &[u8],
) -> Result<(), String> {
    let atomics = model.atomics();
    if answer.steps != 1 || rules.len() < lit_rules::length(atomics.len()) {
        return Ok(());
    }
    let before = SavedRun::read_fitting(model, before);
    let before = before.map_err(|_| "a run that does not fit was advanced")?;
    let standings = before.atomics.iter().zip(&after.atomics);
    for (rank, (atomic, (before, now))) in atomics.into_iter().zip(standings).enumerate() {
        let entry = u16_at(rules, lit_rules::length(rank));
        if entry != NO_RULE {
            test_lit_range(model, atomic, &model.rules[usize::from(entry)], *before, *now)?;
        }
    }
    Ok(())
}

fn test_lit_range(
    model: &Model,
    atomic: usize,
    rule: &Rule,
    before: AtomicRun,
    now: AtomicRun,
) -> Result<(), String> {
    let phases = model.phases_of(atomic);
    let next = |phase: u8| phases[usize::from(phase)].next_phase;
    let advance = phases[usize::from(before.phase)].advance;
    let stayed = now.last - before.last;
    let is_due = advance != UNBOUNDED && stayed == u64::from(advance);
    let internal_first = model.components[atomic].order == 0;
    let (phase, elapsed, reached) = match (is_due, internal_first) {
        (true, true) => (next(before.phase), 0, rule.next_phase),
        (true, false) => (before.phase, stayed, next(rule.next_phase)),
        (false, _) => (before.phase, stayed, rule.next_phase),
    };
    holds(rule.phase == phase, "a rule that is lit names the phase of the search")?;
    holds(now.phase == reached, "a rule that is lit leads to where its atomic is")?;
    let past_the_low_end = elapsed >= u64::from(rule.low_elapsed);
    holds(past_the_low_end, "the elapsed time is not below the low end of the rule that is lit")?;
    let last_tick = match (rule.high_elapsed, model.ranges) {
        (UNBOUNDED, _) => u64::MAX,
        (high, Ranges::Inclusive) => u64::from(high),
        (high, Ranges::HalfOpen) => u64::from(high) - 1,
    };
    holds(elapsed <= last_tick, "the elapsed time is not past the range of the rule that is lit")
}

#[cfg(test)]
mod tests {
    use super::*;
    use reference::builder::NEVER;
    use reference::examples::cue_in_ranges;

    /// What the law says of a cue at t that lit the rule at a position and led to a phase.
    fn law(
        reading: Ranges,
        order: u8,
        advance: u32,
        t: u64,
        (rule, phase): (u8, u8),
    ) -> Result<(), String> {
        let ranges = [(0, 500), (500, UNBOUNDED)];
        let model = cue_in_ranges(2, order, advance, &ranges).read_as(reading).model();
        let answer = Advanced { number: 0, instants: 1, steps: 1, trace_bytes: 0 };
        let before = SavedRun::first(&model).encode();
        let after = SavedRun { open: t + 1, atomics: vec![AtomicRun { phase, last: t }] };
        test_lit_ranges(&model, &answer, &before, &after, &[rule, 0])
    }

    #[test]
    fn a_rule_lit_outside_its_range_is_told() {
        use Ranges::{HalfOpen, Inclusive};
        let (first, second) = ((0, 1), (2, 2));
        for (reading, t, lit, is_right) in [
            (Inclusive, 499, first, true),
            (Inclusive, 500, first, true),
            (Inclusive, 501, first, false),
            (HalfOpen, 499, first, true),
            (HalfOpen, 500, first, false),
            (HalfOpen, 500, second, true),
            (HalfOpen, 499, second, false),
            (HalfOpen, u64::from(UNBOUNDED), second, true),
            (HalfOpen, 499, (1, 4), false),
            (HalfOpen, 499, (0, 2), false),
        ] {
            let found = law(reading, 0, NEVER, t, lit);
            assert_eq!(found.is_ok(), is_right, "{reading:?} at {t}, {lit:?}: {found:?}");
        }
    }

    #[test]
    fn the_same_of_confluent_transitions() {
        use Ranges::{HalfOpen, Inclusive};
        for (reading, order, lit, is_right) in [
            (Inclusive, 1, (0, 4), true),
            (HalfOpen, 1, (0, 4), false),
            (HalfOpen, 1, (2, 5), true),
            (HalfOpen, 0, (1, 4), true),
            (HalfOpen, 0, (3, 5), false),
            (HalfOpen, 0, (0, 1), false),
        ] {
            let found = law(reading, order, 500, 500, lit);
            assert_eq!(found.is_ok(), is_right, "{reading:?}, order {order}, {lit:?}: {found:?}");
        }
    }
}
