//! A model file read in one pass: its numbers up to the routes, its four sections, whose records stay in the
//! file's bytes, and whether a fifth follows them.

use super::unchecked::{at, u16_at, u32_at};
use reference::answers::{
    BAD_COMPONENT, BAD_COUPLING, BAD_FIFTH_SECTION, BAD_PHASE, BAD_RULE, COUNT_LIMIT, CUT_OFF,
    LEFT_OVER, PHASE_SUM,
};
use reference::limits;
use reference::ranges::Ranges;
use reference::records::{Component, Coupling, Phase, Rule};

/// The parent of the root.
const NOBODY: u8 = 255;

pub struct ModelFile<'f> {
    pub components: &'f [u8],
    pub phases: &'f [u8],
    pub rules: &'f [u8],
    pub couplings: &'f [u8],
    /// Whether elapsed ranges stop short of their high ends.
    pub half_open: bool,
    /// By component; the root has none.
    pub parents: [u8; limits::COMPONENTS],
    /// By component; 0 for a coupled one.
    pub phase_counts: [u8; limits::COMPONENTS],
}

impl<'f> ModelFile<'f> {
    /// The sections of a file, or the number by which it is refused, the routes left aside.
    pub fn read(file: &'f [u8]) -> Result<ModelFile<'f>, u64> {
        let mut model = ModelFile {
            components: &[],
            phases: &[],
            rules: &[],
            couplings: &[],
            half_open: false,
            parents: [NOBODY; limits::COMPONENTS],
            phase_counts: [0; limits::COMPONENTS],
        };
        let mut rest = file;
        let count = take_count(&mut rest, limits::COMPONENTS)?;
        if count == 0 {
            return Err(COUNT_LIMIT);
        }
        model.components = take(&mut rest, count * Component::BYTES)?;
        model.check_components(count)?;
        let count = take_count(&mut rest, limits::PHASES)?;
        if count != model.phase_counts.iter().map(|&count| usize::from(count)).sum() {
            return Err(PHASE_SUM);
        }
        model.phases = take(&mut rest, count * Phase::BYTES)?;
        model.check_phases()?;
        let count = take_count(&mut rest, limits::RULES)?;
        model.rules = take(&mut rest, count * Rule::BYTES)?;
        model.check_rules()?;
        let count = take_count(&mut rest, limits::COUPLINGS)?;
        model.couplings = take(&mut rest, count * Coupling::BYTES)?;
        model.check_couplings()?;
        if rest.is_empty() {
            return Ok(model);
        }
        rest = rest.strip_prefix(&Ranges::SECTION).ok_or(BAD_FIFTH_SECTION)?;
        model.half_open = true;
        model.check_half_open_ranges()?;
        if !rest.is_empty() {
            return Err(LEFT_OVER);
        }
        Ok(model)
    }

    fn check_components(&mut self, count: usize) -> Result<(), u64> {
        let mut ancestors = [0u8; limits::COMPONENTS];
        for number in 0..count {
            let byte = |field: usize| at(self.components, Component::BYTES * number + field);
            let [kind, parent, phases, initial, order] = [0, 1, 2, 3, 4].map(byte);
            let coupled = kind == Component::COUPLED && phases | initial | order == 0;
            let atomic = kind == Component::ATOMIC
                && phases <= limits::PHASES_OF_AN_ATOMIC
                && initial < phases
                && order <= 1;
            let legal = if number == 0 {
                coupled && parent == 0
            } else {
                // A coupled component is one without phases.
                let over = usize::from(parent);
                (coupled || atomic)
                    && over < number
                    && at(&self.phase_counts, over) == 0
                    && usize::from(at(&ancestors, over)) < limits::ANCESTORS
            };
            if !legal {
                return Err(BAD_COMPONENT);
            }
            if number > 0 {
                ancestors[number] = at(&ancestors, usize::from(parent)) + 1;
                self.parents[number] = parent;
                self.phase_counts[number] = phases;
            }
        }
        Ok(())
    }

    fn check_phases(&self) -> Result<(), u64> {
        let mut place = 0;
        for count in self.phase_counts {
            for _ in 0..count {
                if !phase_is_legal(self.phases, place, count) {
                    return Err(BAD_PHASE);
                }
                place += Phase::BYTES;
            }
        }
        Ok(())
    }

    fn check_rules(&self) -> Result<(), u64> {
        for record in self.rules.chunks_exact(Rule::BYTES) {
            // A number past the last component has no phases, as a coupled one has none.
            let component = usize::from(record[0]);
            let legal = component < limits::COMPONENTS && {
                let phases = at(&self.phase_counts, component);
                (record[1] < phases)
                    & (record[2] < phases)
                    & (record[3] <= limits::HIGHEST_PORT)
                    & (u16_at(record, 4) <= u16_at(record, 6))
                    & (u32_at(record, 10) <= u32_at(record, 14))
            };
            if !legal {
                return Err(BAD_RULE);
            }
        }
        Ok(())
    }

    /// The records have their low ends at most at the high ones.
    fn check_half_open_ranges(&self) -> Result<(), u64> {
        let mut rules = self.rules.chunks_exact(Rule::BYTES);
        match rules.any(|record| u32_at(record, 10) == u32_at(record, 14)) {
            true => Err(BAD_RULE),
            false => Ok(()),
        }
    }

    fn check_couplings(&self) -> Result<(), u64> {
        let count = self.components.len() / Component::BYTES;
        let mut before = 0;
        for row in self.couplings.chunks_exact(Coupling::BYTES) {
            let (source, target) = (usize::from(row[0]), usize::from(row[2]));
            // Rows are compared byte by byte, the first one highest.
            let order = u32::from_be_bytes([row[0], row[1], row[2], row[3]]);
            let in_range = (before <= order)
                & (source < count)
                & (target < count)
                & (row[1] <= limits::HIGHEST_PORT)
                & (row[3] <= limits::HIGHEST_PORT);
            if !in_range || !self.are_related(source, target) {
                return Err(BAD_COUPLING);
            }
            before = order;
        }
        Ok(())
    }

    #[inline(always)]
    fn are_related(&self, source: usize, target: usize) -> bool {
        let over_source = at(&self.parents, source);
        let over_target = at(&self.parents, target);
        (usize::from(over_target) == source)
            | (usize::from(over_source) == target)
            | ((over_source == over_target) & (source != target))
    }
}

/// Takes bytes from the front of the rest.
fn take<'f>(rest: &mut &'f [u8], bytes: usize) -> Result<&'f [u8], u64> {
    if rest.len() < bytes {
        return Err(CUT_OFF);
    }
    let (front, back) = rest.split_at(bytes);
    *rest = back;
    Ok(front)
}

fn take_count(rest: &mut &[u8], limit: usize) -> Result<usize, u64> {
    let count = usize::from(u16_at(take(rest, 2)?, 0));
    if count > limit {
        return Err(COUNT_LIMIT);
    }
    Ok(count)
}

#[inline(always)]
fn phase_is_legal(phases: &[u8], place: usize, phase_count: u8) -> bool {
    let advance = u32_at(phases, place);
    let outputs = at(phases, place + 5);
    let mut legal = (advance <= limits::LONGEST_ADVANCE || advance == limits::UNBOUNDED)
        & (at(phases, place + 4) < phase_count)
        & (outputs <= limits::OUTPUTS_OF_A_PHASE);
    let mut before = 0;
    for slot in 0..limits::OUTPUTS_OF_A_PHASE {
        let key = slot_key(phases, place + 6 + 3 * usize::from(slot));
        let used = slot < outputs;
        let highest = if used { (u32::from(limits::HIGHEST_PORT) << 16) | 0xFFFF } else { 0 };
        let lowest = if used { before } else { 0 };
        legal &= (lowest <= key) & (key <= highest);
        before = key;
    }
    legal
}

/// A slot as a key: port times 65,536, and the value.
#[inline(always)]
pub fn slot_key(phases: &[u8], place: usize) -> u32 {
    (u32::from(at(phases, place)) << 16) | u32::from(u16_at(phases, place + 1))
}
