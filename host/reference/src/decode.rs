//! Reading a model file: the rows of the refusal table from "each section" down to "routes".

use crate::answers::{
    BAD_COMPONENT, BAD_COUPLING, BAD_FIFTH_SECTION, BAD_PHASE, BAD_RULE, COUNT_LIMIT, CUT_OFF,
    LEFT_OVER, PHASE_SUM, TOO_MANY_ROUTES,
};
use crate::limits;
use crate::little_endian::u16_at;
use crate::model::{parent_of, relation_of, Model};
use crate::ranges::Ranges;
use crate::records::{Component, Coupling, Message, Phase, Rule};
use crate::routes;

/// The model in a file, or the number by which the file is refused.
pub fn decode(file: &[u8]) -> Result<Model, u64> {
    let mut rest = file;
    let components = read_components(&mut rest)?;
    let phases = read_phases(&mut rest, &components)?;
    let rules = read_rules(&mut rest, &components)?;
    let couplings = read_couplings(&mut rest, &components)?;
    let ranges = read_ranges(&mut rest, &rules)?;
    if !rest.is_empty() {
        return Err(LEFT_OVER);
    }
    let model = Model { components, phases, rules, couplings, ranges };
    if routes::count(&model) > limits::ROUTES {
        return Err(TOO_MANY_ROUTES);
    }
    Ok(model)
}

/// Takes bytes from the front of the rest, or refuses where the rest is shorter.
fn take<'file>(rest: &mut &'file [u8], bytes: usize) -> Result<&'file [u8], u64> {
    if rest.len() < bytes {
        return Err(CUT_OFF);
    }
    let (front, back) = rest.split_at(bytes);
    *rest = back;
    Ok(front)
}

fn read_count(rest: &mut &[u8], limit: usize) -> Result<usize, u64> {
    let count = usize::from(u16_at(take(rest, 2)?, 0));
    if count > limit {
        return Err(COUNT_LIMIT);
    }
    Ok(count)
}

fn read_components(rest: &mut &[u8]) -> Result<Vec<Component>, u64> {
    let count = read_count(rest, limits::COMPONENTS)?;
    if count == 0 {
        return Err(COUNT_LIMIT);
    }
    let bytes = take(rest, count * Component::BYTES)?;
    let components: Vec<Component> =
        bytes.chunks_exact(Component::BYTES).map(Component::read).collect();
    for number in 0..count {
        if !component_is_legal(&components[..=number]) {
            return Err(BAD_COMPONENT);
        }
    }
    Ok(components)
}

/// Whether the last of these components keeps its lines; the ones before it do.
fn component_is_legal(components: &[Component]) -> bool {
    let number = components.len() - 1;
    let component = components[number];
    if number == 0 {
        return component == Component::default();
    }
    let parent = usize::from(component.parent);
    let parent_is_legal = parent < number && !components[parent].is_atomic();
    if !parent_is_legal || ancestors(components, number) > limits::ANCESTORS {
        return false;
    }
    match component.kind {
        Component::COUPLED => {
            component.phase_count == 0 && component.initial_phase == 0 && component.order == 0
        }
        Component::ATOMIC => {
            (1..=limits::PHASES_OF_AN_ATOMIC).contains(&component.phase_count)
                && component.initial_phase < component.phase_count
                && component.order <= 1
        }
        _ => false,
    }
}

fn ancestors(components: &[Component], number: usize) -> usize {
    let mut count = 0;
    let mut at = number;
    while let Some(parent) = parent_of(components, at) {
        count += 1;
        at = parent;
    }
    count
}

fn read_phases(rest: &mut &[u8], components: &[Component]) -> Result<Vec<Phase>, u64> {
    let count = read_count(rest, limits::PHASES)?;
    let sum: usize = components.iter().map(|component| usize::from(component.phase_count)).sum();
    if count != sum {
        return Err(PHASE_SUM);
    }
    let bytes = take(rest, count * Phase::BYTES)?;
    let phases: Vec<Phase> = bytes.chunks_exact(Phase::BYTES).map(Phase::read).collect();
    let mut of_which_atomic = components
        .iter()
        .flat_map(|component| (0..component.phase_count).map(move |_| component.phase_count));
    for phase in &phases {
        let phase_count = of_which_atomic.next().expect("as many as the sum");
        if !phase_is_legal(phase, phase_count) {
            return Err(BAD_PHASE);
        }
    }
    Ok(phases)
}

fn phase_is_legal(phase: &Phase, phase_count: u8) -> bool {
    let advance_is_legal =
        phase.advance <= limits::LONGEST_ADVANCE || phase.advance == limits::UNBOUNDED;
    if !advance_is_legal || phase.next_phase >= phase_count {
        return false;
    }
    if phase.output_count > limits::OUTPUTS_OF_A_PHASE {
        return false;
    }
    let (used, unused) = phase.slots.split_at(usize::from(phase.output_count));
    used.iter().all(|slot| slot.port <= limits::HIGHEST_PORT)
        && used.windows(2).all(|pair| pair[0] <= pair[1])
        && unused.iter().all(|slot| *slot == Message::default())
}

fn read_rules(rest: &mut &[u8], components: &[Component]) -> Result<Vec<Rule>, u64> {
    let count = read_count(rest, limits::RULES)?;
    let bytes = take(rest, count * Rule::BYTES)?;
    let rules: Vec<Rule> = bytes.chunks_exact(Rule::BYTES).map(Rule::read).collect();
    for rule in &rules {
        if !rule_is_legal(rule, components) {
            return Err(BAD_RULE);
        }
    }
    Ok(rules)
}

fn rule_is_legal(rule: &Rule, components: &[Component]) -> bool {
    let Some(atomic) = components.get(usize::from(rule.component)) else {
        return false;
    };
    atomic.is_atomic()
        && rule.phase < atomic.phase_count
        && rule.next_phase < atomic.phase_count
        && rule.port <= limits::HIGHEST_PORT
        && rule.low_value <= rule.high_value
        && rule.low_elapsed <= rule.high_elapsed
}

fn read_couplings(rest: &mut &[u8], components: &[Component]) -> Result<Vec<Coupling>, u64> {
    let count = read_count(rest, limits::COUPLINGS)?;
    let bytes = take(rest, count * Coupling::BYTES)?;
    let couplings: Vec<Coupling> =
        bytes.chunks_exact(Coupling::BYTES).map(Coupling::read).collect();
    for (number, coupling) in couplings.iter().enumerate() {
        let falls = number > 0 && couplings[number - 1] > *coupling;
        if falls || !coupling_is_legal(coupling, components) {
            return Err(BAD_COUPLING);
        }
    }
    Ok(couplings)
}

fn coupling_is_legal(coupling: &Coupling, components: &[Component]) -> bool {
    let (source, target) = (usize::from(coupling.source), usize::from(coupling.target));
    source < components.len()
        && target < components.len()
        && coupling.source_port <= limits::HIGHEST_PORT
        && coupling.target_port <= limits::HIGHEST_PORT
        && relation_of(components, source, target).is_some()
}

/// The fifth section, or its absence where nothing follows the couplings. The rules were judged without it:
/// what it forbids them is judged once it has been read.
fn read_ranges(rest: &mut &[u8], rules: &[Rule]) -> Result<Ranges, u64> {
    if rest.is_empty() {
        return Ok(Ranges::Inclusive);
    }
    *rest = rest.strip_prefix(&Ranges::SECTION).ok_or(BAD_FIFTH_SECTION)?;
    if !rules.iter().all(|rule| Ranges::HalfOpen.allows(rule)) {
        return Err(BAD_RULE);
    }
    Ok(Ranges::HalfOpen)
}
