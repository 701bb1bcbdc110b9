//! The deciding rule, searched over the range of the rules that name an atomic, and the transitions.

use super::advance::Accepted;
use super::held::Held;
use super::lights::Lights;
use super::unchecked::{at, u16_at, u32_at};
use reference::limits;
use reference::records::{Phase, Rule};

/// How many keys of a bag lie from low to high.
#[inline(always)]
fn count_between(bag: &[u32], low: u32, high: u32) -> u32 {
    bag.iter().map(|&key| u32::from(key.wrapping_sub(low) <= high - low)).sum()
}

#[inline(always)]
fn holds(
    rules: &[u8],
    place: usize,
    atomic_and_phase: u16,
    elapsed: u64,
    half_open: bool,
    bag: &[u32],
) -> bool {
    if u16_at(rules, place) != atomic_and_phase || elapsed < u64::from(u32_at(rules, place + 10)) {
        return false;
    }
    let high_elapsed = u32_at(rules, place + 14);
    // How ranges are read is asked on the tick of their end only.
    if elapsed >= u64::from(high_elapsed)
        && high_elapsed != limits::UNBOUNDED
        && (half_open || elapsed > u64::from(high_elapsed))
    {
        return false;
    }
    let port = u32::from(at(rules, place + 3)) << 16;
    let low = port | u32::from(u16_at(rules, place + 4));
    let high = port | u32::from(u16_at(rules, place + 6));
    u32::from(u16_at(rules, place + 8)) <= count_between(bag, low, high)
}

/// An atomic's external part: its bag, and where the rule that decides is noted.
struct External<'e, L> {
    accepted: &'e Accepted<'e>,
    position: usize,
    number: usize,
    bag: &'e [u32],
    lights: &'e mut L,
}

impl<L: Lights> External<'_, L> {
    /// Where the first rule that holds leads, and `otherwise` where no rule holds.
    #[inline(always)]
    fn lead(self, phase: u8, elapsed: u64, otherwise: u8) -> u8 {
        let Accepted { model, tables } = *self.accepted;
        let atomic_and_phase = self.number as u16 | (u16::from(phase) << 8);
        let from = usize::from(at(&tables.rules_from, self.number));
        let to = usize::from(at(&tables.rules_to, self.number));
        let mut place = Rule::BYTES * from;
        for rule in from..to {
            let half_open = model.half_open;
            if holds(model.rules, place, atomic_and_phase, elapsed, half_open, self.bag) {
                self.lights.light(self.position, rule as u16);
                return at(model.rules, place + 2);
            }
            place += Rule::BYTES;
        }
        self.lights.light(self.position, limits::NO_RULE);
        otherwise
    }
}

/// A number that no phase has.
const NO_PHASE: u8 = u8::MAX;

/// The phase that an atomic enters, due or with a bag or both. None where it is not due and no rule
/// holds for its bag, so that its phase and last moment stay.
#[inline(always)]
pub fn entered<L: Lights>(
    accepted: &Accepted,
    held: &Held,
    position: usize,
    now: u64,
    is_due: bool,
    bag: &[u32],
    lights: &mut L,
) -> Option<u8> {
    let Accepted { model, tables } = *accepted;
    let number = usize::from(at(&tables.numbers, position));
    let first = usize::from(at(&tables.first_phases, number));
    let next = |phase: u8| at(model.phases, Phase::BYTES * (first + usize::from(phase)) + 4);
    let phase = at(&held.phases, position);
    let external = External { accepted, position, number, bag, lights };
    if !is_due {
        let elapsed = now - at(&held.lasts, position);
        let entered = external.lead(phase, elapsed, NO_PHASE);
        return (entered != NO_PHASE).then_some(entered);
    }
    if bag.is_empty() {
        return Some(next(phase));
    }
    if at(&tables.orders, number) == 0 {
        let next = next(phase);
        return Some(external.lead(next, 0, next));
    }
    let advance = u64::from(u32_at(model.phases, Phase::BYTES * (first + usize::from(phase))));
    Some(next(external.lead(phase, advance, phase)))
}
