//! Models that soon have taken more steps than a channel's share.

use crate::random::Random;
use reference::builder::{phase, rule, Builder, NEVER};
use reference::examples::CUE;
use reference::model::Model;

/// Tickers that rest in phase 0 until they are cued and start in phase 1; each tick has some steps more of its
/// own, and may start another ticker.
pub fn busy(random: &mut Random) -> Model {
    let mut builder = Builder::new();
    let tickers = random.between(1, 3);
    for number in 0..tickers {
        let around = if random.percent(30) { builder.coupled(0) } else { 0 };
        let steps = random.pick(&[0, 0, 1, 5, 20, 60]);
        let value = random.below(3) as u16;
        let outputs: &[(u8, u16)] = if random.percent(40) { &[(0, value)] } else { &[] };
        let mut phases = vec![phase(NEVER, 0, &[])];
        let period = random.between(1, 4) as u32;
        phases.push(phase(period, if steps > 0 { 2 } else { 1 }, outputs));
        for step in 1..=steps {
            phases.push(phase(0, if step == steps { 1 } else { step as u8 + 2 }, &[]));
        }
        let atomic =
            builder.atomic_from(around, u8::from(number == 0 || random.percent(60)), 0, &phases);
        builder.rule(rule(atomic, 0, CUE, 1));
        if around != 0 {
            builder.couple(around, 0, atomic, 0);
            builder.couple(atomic, 0, around, 0);
        }
        let outermost = if around != 0 { around } else { atomic };
        builder.couple(0, 0, outermost, 0);
        builder.couple(outermost, 0, 0, 0);
    }
    builder.model()
}
