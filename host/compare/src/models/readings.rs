//! Random models under either reading of elapsed ranges, with ranges that meet: one begins where another ends.

use crate::random::Random;
use reference::limits::{RULES, UNBOUNDED};
use reference::model::Model;
use reference::ranges::Ranges;
use reference::records::Rule;

/// How many random models of a hundred are half-open.
const HALF_OPEN: u64 = 50;
/// How many rules of a hundred are met by another, where they have an end.
const MET: u64 = 40;

/// Adds rules that meet others, and makes some models half-open. Equal ends, which those may not have, are
/// moved apart by a tick.
pub fn read_in_either_way(random: &mut Random, model: &mut Model) {
    add_meeting_rules(random, model);
    if random.percent(HALF_OPEN) {
        model.ranges = Ranges::HalfOpen;
        model.rules.iter_mut().for_each(move_apart);
    }
}

fn add_meeting_rules(random: &mut Random, model: &mut Model) {
    let mut rules = Vec::new();
    let mut room = RULES.saturating_sub(model.rules.len());
    for &rule in &model.rules {
        let has_end = rule.high_elapsed != UNBOUNDED;
        if room == 0 || !has_end || !random.percent(MET) {
            rules.push(rule);
            continue;
        }
        room -= 1;
        let met_by = meeting(random, model, &rule);
        // Mostly the later range comes later in the file, as it is drawn.
        let in_turn = if random.percent(80) { [rule, met_by] } else { [met_by, rule] };
        rules.extend(in_turn);
    }
    model.rules = rules;
}

/// The same rule but that its range begins where that of the other ends, and that it may lead elsewhere.
fn meeting(random: &mut Random, model: &Model, rule: &Rule) -> Rule {
    let phase_count = model.components[usize::from(rule.component)].phase_count;
    let later = rule.high_elapsed.saturating_add(random.pick(&[1, 2, 5, 1_000]));
    Rule {
        next_phase: random.below(u64::from(phase_count)) as u8,
        low_elapsed: rule.high_elapsed,
        high_elapsed: random.pick(&[later, UNBOUNDED]),
        ..*rule
    }
}

/// Equal ends get a tick between them; no end stays no end.
pub fn move_apart(rule: &mut Rule) {
    match (rule.low_elapsed, rule.high_elapsed) {
        (low, high) if low < high => {}
        (UNBOUNDED, _) => rule.low_elapsed -= 1,
        _ => rule.high_elapsed += 1,
    }
}
