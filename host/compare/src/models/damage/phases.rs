//! Phases that break a line: all get 6.

use super::{place, spoilt_after, Damage};
use crate::random::Random;
use reference::model::Model;
use reference::records::{Message, Phase};

macro_rules! bad_phase {
    ($name:literal, $which:expr, $break:expr) => {
        Damage {
            name: $name,
            number: 6,
            apply: |random, model| broken(random, model, $which, $break),
        }
    };
}

pub const DAMAGES: [Damage; 12] = [
    bad_phase!("advance one above 10^9", any, |_, phase, _| phase.advance = 1_000_000_001),
    bad_phase!("advance one below never", any, |_, phase, _| phase.advance = 4_294_967_294),
    bad_phase!("advance between 10^9 and never", any, |random, phase, _| {
        phase.advance = random.between(1_000_000_001, 4_294_967_294) as u32;
    }),
    bad_phase!("next phase at the count", any, |_, phase, count| phase.next_phase = count),
    bad_phase!("next phase above the count", any, |random, phase, count| {
        phase.next_phase = random.between(u64::from(count), 255) as u8;
    }),
    bad_phase!("five outputs", any, |random, phase, _| {
        phase.output_count = random.pick(&[5, 6, 255]);
        phase.slots = [Message::default(); 4];
    }),
    bad_phase!("output port 4", has_output, |random, phase, _| {
        let last = usize::from(phase.output_count) - 1;
        phase.slots[last].port = random.pick(&[4, 5, 128, 255]);
    }),
    bad_phase!("outputs fall by value", any, |random, phase, _| {
        // The first bytes of the values rise, the values fall.
        let values = random.pick(&[(256, 1), (2, 1), (65_535, 65_279)]);
        set_outputs(phase, (1, values.0), (1, values.1));
    }),
    bad_phase!("outputs fall by port", any, |random, phase, _| {
        set_outputs(phase, (2, 0), (1, random.pick(&[0, 1, 65_535])));
    }),
    bad_phase!("port in an unused slot", has_unused, |random, phase, _| {
        let at = random.between(u64::from(phase.output_count), 3) as usize;
        phase.slots[at].port = random.pick(&[1, 3, 255]);
    }),
    bad_phase!("value in an unused slot", has_unused, |random, phase, _| {
        let at = random.between(u64::from(phase.output_count), 3) as usize;
        phase.slots[at].value = random.pick(&[1, 255, 256, 65_535]);
    }),
    bad_phase!("never phase with a bad next phase", any, |_, phase, count| {
        *phase = Phase { advance: 4_294_967_295, next_phase: count, ..*phase };
    }),
];

fn any(_: &Phase) -> bool {
    true
}

fn has_output(phase: &Phase) -> bool {
    phase.output_count > 0
}

fn has_unused(phase: &Phase) -> bool {
    phase.output_count < 4
}

fn set_outputs(phase: &mut Phase, first: (u8, u16), second: (u8, u16)) {
    phase.output_count = 2;
    phase.slots = [Message::default(); 4];
    phase.slots[0] = Message { port: first.0, value: first.1 };
    phase.slots[1] = Message { port: second.0, value: second.1 };
}

fn broken(
    random: &mut Random,
    model: &Model,
    which: fn(&Phase) -> bool,
    break_it: fn(&mut Random, &mut Phase, u8),
) -> Option<Vec<u8>> {
    let mut model = model.clone();
    let at = place(random, &model.phases, which)?;
    let counts: Vec<u8> = model
        .components
        .iter()
        .flat_map(|component| (0..component.phase_count).map(|_| component.phase_count))
        .collect();
    break_it(random, &mut model.phases[at], counts[at]);
    Some(spoilt_after(random, &model, 1))
}
