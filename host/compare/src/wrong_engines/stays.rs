//! Wrong readings of a stay and of the cues in it, made of the reference: its nest on a changed model,
//! or its flat machine with another transition. They light the right rules, so that they are found by
//! their stays.

use reference::builder::rule;
use reference::decode::decode;
use reference::flat_machine::{self, changed, After, Brought, Change};
use reference::flatten::flat_form;
use reference::limits::{NO_RULE, RULES};
use reference::records::Rule;
use reference::saved_run::AtomicRun;
use reference::Advanced;
use std::collections::BTreeMap;

/// The model with a last rule for each phase that holds for every bag and leads into the same phase:
/// no bag is a stray to it, and each begins the stay afresh. Where a file has no room for so many
/// rules, the model as it is.
pub fn with_rules_for_strays(file: &[u8]) -> Vec<u8> {
    let Ok(mut model) = decode(file) else {
        return file.to_vec();
    };
    for atomic in model.atomics() {
        let phases = 0..model.components[atomic].phase_count;
        let holds_always = |phase: u8| Rule { least_count: 0, ..rule(atomic, phase, 0, phase) };
        model.rules.extend(phases.map(holds_always));
    }
    if model.rules.len() > RULES {
        return file.to_vec();
    }
    model.encode()
}

/// Advances a run of any model on the flat machine, with this transition.
pub fn advance_by(
    change: &mut Change,
    file: &[u8],
    run: &mut [u8],
    t: u64,
    bag: &[u8],
    trace: &mut [u8],
    rules: &mut [u8],
) -> Advanced {
    match decode(file) {
        Ok(model) => {
            let flat = flat_form(&model).encode();
            flat_machine::advance_by(change, &flat, run, t, bag, trace, rules)
        }
        Err(number) => Advanced::refused(number),
    }
}

/// Tells a stray by the phase: an atomic that is not due and stays in its phase keeps its last moment,
/// be it that a rule has led there.
pub fn same_phase_is_a_stray(brought: &Brought) -> After {
    let after = changed(brought);
    if !brought.is_due && after.entry.phase == brought.entry.phase {
        return After { entry: brought.entry, ..after };
    }
    after
}

/// Keeps the last moment in a confluent transition of this order in which no rule holds. Only where the
/// stay in the phase entered would then be over before now does it begin afresh: an overdue atomic would
/// show at once, and this fault should be found without it.
pub fn confluent_keeps_last_moment(order: u8, brought: &Brought) -> After {
    let Brought { atomic, entry, moment, is_due, .. } = *brought;
    let after = changed(brought);
    let without_rule = is_due && after.rule == Some(NO_RULE);
    if !without_rule || atomic.internal_first() != (order == 0) {
        return after;
    }
    let advance = atomic.advance(after.entry.phase);
    let over = advance.is_some_and(|advance| entry.last + advance < moment);
    if over {
        return after;
    }
    After { entry: AtomicRun { last: entry.last, ..after.entry }, ..after }
}

/// The moment of the last stray of each atomic's stay. A saved run has no place for it, so that an
/// engine can know those of the same call only.
pub type Strays = BTreeMap<usize, u64>;

/// Searches in order 1 with what the last stray left of the advance, instead of all of it.
pub fn order_1_searches_with_what_is_left(strays: &mut Strays, brought: &Brought) -> After {
    let Brought { atomic, rank, entry, moment, is_due, bag } = *brought;
    let after = changed(brought);
    if !is_due && after.entry == entry {
        if !bag.is_empty() {
            strays.insert(rank, moment);
        }
        return after;
    }
    match strays.remove(&rank) {
        Some(stray) if is_due && !bag.is_empty() && !atomic.internal_first() => {
            let rule = atomic.deciding_rule(entry.phase, moment - stray, bag);
            let led = rule.map_or(entry.phase, |(_, next_phase)| next_phase);
            After { entry: AtomicRun { phase: atomic.next_phase(led), last: moment }, ..after }
        }
        _ => after,
    }
}
