//! Random nests: any depth up to 8, few values and advances so that things meet, repeated couplings,
//! empty coupled components, either reading of ranges, and now and then phases that go on without end at
//! one moment.

use super::readings;
use crate::random::Random;
use reference::builder::{phase, Builder, NEVER};
use reference::limits::{ANCESTORS, PHASES, ROUTES, UNBOUNDED};
use reference::model::Model;
use reference::records::{Phase, Rule};
use reference::routes;

/// Values on which outputs and rules agree; 255 and 256 tell the order of numbers from that of bytes.
pub const VALUES: [u16; 8] = [0, 1, 2, 3, 7, 255, 256, 65_535];

const SHORT_ADVANCES: [u32; 8] = [1, 1, 2, 3, 5, 10, 10, NEVER];
const LONG_ADVANCES: [u32; 8] =
    [1_000, 90_000, 4_000_000, 500_000_000, 1_000_000_000, 1_000_000_000, NEVER, NEVER];

struct Style {
    components: usize,
    atomic_percent: u64,
    deep_percent: u64,
    zero_percent: u64,
    /// Whether a phase with advance 0 leads to one with another advance.
    tame: bool,
    advances: [u32; 8],
    most_phases: u64,
    /// How many rules that no bag satisfies stand before the others, so that those have positions of two
    /// bytes.
    idle_rules: u64,
    rows: usize,
    /// How many components hear the one around them on port 0, beside those rows: what is given at the
    /// root reaches the lowest levels only through a row on each.
    hearing_percent: u64,
    highest_port: u64,
    repeat_percent: u64,
}

fn style(random: &mut Random) -> Style {
    let components = match random.below(20) {
        0..=10 => random.between(1, 8),
        11..=17 => random.between(9, 24),
        _ => random.between(25, 64),
    } as usize;
    Style {
        components,
        atomic_percent: random.pick(&[40, 60, 60, 80, 100]),
        deep_percent: random.pick(&[0, 30, 80]),
        zero_percent: random.pick(&[0, 10, 30]),
        tame: random.percent(96),
        advances: if random.percent(85) { SHORT_ADVANCES } else { LONG_ADVANCES },
        most_phases: if random.percent(90) { 4 } else { 64 },
        idle_rules: if random.percent(10) { random.between(200, 640) } else { 0 },
        rows: components * random.index(5),
        hearing_percent: random.pick(&[0, 0, 70, 100]),
        highest_port: random.pick(&[0, 1, 1, 3]),
        repeat_percent: random.pick(&[0, 15, 60]),
    }
}

/// An atomic that rules may name, with its phases' advances.
struct Made {
    number: usize,
    advances: Vec<u32>,
}

/// A random model. It keeps every line of the file's form; only a few have too many routes.
pub fn nest(random: &mut Random) -> Model {
    let style = style(random);
    let mut builder = Builder::new();
    let mut depth = vec![0];
    let mut parent = vec![0];
    let mut coupled = vec![0];
    let mut atomics = Vec::new();
    let mut phases_left = PHASES as u64;
    while depth.len() < style.components {
        let around = if random.percent(style.deep_percent) {
            coupled[coupled.len() - 1]
        } else {
            random.pick(&coupled)
        };
        if depth[around] == ANCESTORS {
            // A coupled component so deep stays empty; try another parent.
            coupled.retain(|&component| component != around);
            continue;
        }
        depth.push(depth[around] + 1);
        parent.push(around);
        if random.percent(style.atomic_percent) && phases_left > 0 {
            let count = random.between(1, style.most_phases.min(phases_left)) as u8;
            phases_left -= u64::from(count);
            let phases = phases(random, &style, count);
            let initial = random.below(u64::from(count)) as u8;
            let order = random.below(2) as u8;
            let number = builder.atomic_from(around, initial, order, &phases);
            let advances = phases.iter().map(|phase| phase.advance).collect();
            atomics.push(Made { number, advances });
        } else {
            coupled.push(builder.coupled(around));
        }
    }
    add_rules(random, &mut builder, &style, &atomics);
    add_couplings(random, &mut builder, &style, &parent);
    let mut model = builder.model();
    let may_stay_over = random.percent(4);
    while routes::count(&model) > ROUTES && !may_stay_over {
        model.couplings.retain(|_| random.percent(60));
    }
    readings::read_in_either_way(random, &mut model);
    model
}

fn phases(random: &mut Random, style: &Style, count: u8) -> Vec<Phase> {
    let mut advances: Vec<u32> = (0..count)
        .map(|_| match random.percent(style.zero_percent) {
            true => 0,
            false => random.pick(&style.advances),
        })
        .collect();
    let lasting: Vec<u8> =
        (0..count).filter(|&number| advances[usize::from(number)] != 0).collect();
    if style.tame && lasting.is_empty() {
        advances.fill(random.pick(&style.advances));
    }
    let mut phases = Vec::new();
    for &advance in &advances {
        let next = if advance == 0 && style.tame && !lasting.is_empty() {
            random.pick(&lasting)
        } else {
            random.below(u64::from(count)) as u8
        };
        phases.push(phase(advance, next, &outputs(random, style)));
    }
    phases
}

fn outputs(random: &mut Random, style: &Style) -> Vec<(u8, u16)> {
    let count = random.pick(&[0, 0, 1, 1, 1, 2, 3, 4]);
    let mut outputs: Vec<(u8, u16)> = (0..count)
        .map(|_| (random.between(0, style.highest_port) as u8, random.pick(&VALUES)))
        .collect();
    outputs.sort_unstable();
    outputs
}

fn add_rules(random: &mut Random, builder: &mut Builder, style: &Style, atomics: &[Made]) {
    if atomics.is_empty() {
        return;
    }
    let rules = random.index(atomics.len() * 6 + 1) as u64;
    for number in 0..style.idle_rules + rules {
        let is_idle = number < style.idle_rules;
        let Made { number, advances } = &atomics[random.index(atomics.len())];
        let phase = random.index(advances.len());
        let (low_value, high_value) = value_range(random);
        let (low_elapsed, high_elapsed) = elapsed_range(random, style, advances[phase]);
        builder.rule(Rule {
            component: *number as u8,
            phase: phase as u8,
            next_phase: random.index(advances.len()) as u8,
            port: random.between(0, style.highest_port) as u8,
            low_value,
            high_value,
            least_count: if is_idle { u16::MAX } else { random.pick(&[0, 1, 1, 1, 1, 2, 3, 5]) },
            low_elapsed,
            high_elapsed,
        });
    }
}

fn value_range(random: &mut Random) -> (u16, u16) {
    let (one, other) = (random.pick(&VALUES), random.pick(&VALUES));
    match random.below(4) {
        0 => (0, 65_535),
        1 => (one, one),
        _ => (one.min(other), one.max(other)),
    }
}

/// A range of elapsed times in a phase. Order 1 searches at the end of a stay, with all of the phase's
/// advance: some ranges begin or end just there.
fn elapsed_range(random: &mut Random, style: &Style, advance: u32) -> (u32, u32) {
    let mut end = || random.pick(&style.advances).saturating_sub(random.below(2) as u32);
    let (one, other) = (end(), end());
    match random.below(12) {
        0..=3 => (0, UNBOUNDED),
        4 => (one, one),
        5 => (0, one),
        6 => (one, UNBOUNDED),
        7 => (one.min(other), one.max(other)),
        8 => (advance, advance),
        9 | 10 => (0, advance),
        _ => (advance, UNBOUNDED),
    }
}

fn add_couplings(random: &mut Random, builder: &mut Builder, style: &Style, parent: &[usize]) {
    if parent.len() == 1 {
        return;
    }
    for (component, &around) in parent.iter().enumerate().skip(1) {
        if random.percent(style.hearing_percent) {
            builder.couple(around, 0, component, 0);
        }
    }
    for _ in 0..style.rows {
        let component = 1 + random.index(parent.len() - 1);
        let around = parent[component];
        let siblings: Vec<usize> = (1..parent.len())
            .filter(|&other| other != component && parent[other] == around)
            .collect();
        let (source, target) = match random.below(4) {
            0 => (around, component),
            1 => (component, around),
            _ if siblings.is_empty() => continue,
            _ => (component, random.pick(&siblings)),
        };
        let times = match random.percent(style.repeat_percent) {
            true => random.between(2, 4) as usize,
            false => 1,
        };
        let source_port = random.between(0, style.highest_port) as u8;
        let target_port = random.between(0, style.highest_port) as u8;
        builder.couple_times(times, source, source_port, target, target_port);
    }
}
