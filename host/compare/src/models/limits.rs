//! Models at each limit and one past it, with the number that each must get.

use super::tails::TAILS;
use reference::builder::{phase, rule, Builder, NEVER};
use reference::examples::{
    atomic_behind_rows, dead_ways, dead_ways_up_and_down, last_rule_decides, repeated_way_out,
};
use reference::records::Phase;

/// A name, the number that the model must get, and the model's file.
pub type Limit = (&'static str, u64, fn() -> Vec<u8>);

/// Every file whose number is known, those that are about their tails among them.
pub fn all() -> Vec<&'static Limit> {
    LIMITS.iter().chain(&TAILS).collect()
}

const LIMITS: [Limit; 29] = [
    ("a lone root", 0, || Builder::new().file()),
    ("64 components", 0, || components(64).file()),
    ("65 components", 3, || components(65).file()),
    ("63 atomics", 0, || atomics(63).file()),
    ("8 ancestors", 0, || nested(8).file()),
    ("9 ancestors", 4, || nested(9).file()),
    ("a coupled component with 8 ancestors", 0, || nested_coupled(8).file()),
    ("a coupled component with 9 ancestors", 4, || nested_coupled(9).file()),
    ("64 phases of an atomic", 0, || phases(&[64]).file()),
    ("65 phases of an atomic", 4, || phases(&[65]).file()),
    ("512 phases", 0, || phases(&[64; 8]).file()),
    ("513 phases", 3, || phases(&[57; 9]).file()),
    ("1,024 rules", 0, || last_rule_decides(1_024).file()),
    ("1,025 rules", 3, || last_rule_decides(1_025).file()),
    ("1,024 couplings", 0, || atomic_behind_rows(1_024, 16_384).file()),
    ("1,025 couplings", 3, || atomic_behind_rows(1_025, 16_384).file()),
    ("1,024 routes by 32 times 32", 0, || repeated_way_out(32, 32).file()),
    ("1,025 routes by 25 times 41", 9, || repeated_way_out(25, 41).file()),
    ("262,144 routes", 9, || repeated_way_out(512, 512).file()),
    ("advance 1,000,000,000", 0, || advance(1_000_000_000).file()),
    ("advance 1,000,000,001", 6, || advance(1_000_000_001).file()),
    ("advance 4,294,967,294", 6, || advance(4_294_967_294).file()),
    ("advance never", 0, || advance(NEVER).file()),
    ("146^7 dead ways", 0, || dead_ways(8, 146).file()),
    ("68^15 dead ways", 0, || dead_ways_up_and_down(8, 68).file()),
    ("140^7 ways to the root", 9, || {
        let mut model = dead_ways(8, 140);
        model.couple(1, 0, 0, 0);
        model.file()
    }),
    ("root bag of 4,096 from many atomics", 0, || many_at_the_root().file()),
    ("a file of 32,072 bytes", 0, || largest().file()),
    ("only empty coupled components", 0, || nested_coupled(3).file()),
];

fn resting(count: usize) -> Vec<Phase> {
    (0..count).map(|_| phase(NEVER, 0, &[])).collect()
}

fn components(count: usize) -> Builder {
    let mut model = Builder::new();
    for number in 1..count {
        match number % 3 {
            0 => model.atomic(1, &[phase(2, 0, &[(0, 1)])]),
            1 => model.coupled(0),
            _ => model.coupled(1),
        };
    }
    model
}

fn atomics(count: usize) -> Builder {
    let mut model = Builder::new();
    for number in 0..count {
        let atomic = model.atomic(0, &[phase(1 + number as u32 % 7, 0, &[(0, number as u16)])]);
        model.couple(atomic, 0, 0, 0);
        model.couple(0, 0, atomic, 0);
    }
    model
}

/// An atomic with so many ancestors, joined to the root's ports through all of them.
fn nested(ancestors: usize) -> Builder {
    let mut model = Builder::new();
    let innermost = model.coupled_chain(0, ancestors - 1);
    let phases = [phase(NEVER, 0, &[]), phase(4, 0, &[(2, 5)])];
    let atomic = model.atomic(innermost, &phases);
    model.rule(rule(atomic, 0, 7, 1));
    for inside in 1..=atomic {
        model.couple(inside - 1, 0, inside, 0);
        model.couple(inside, 2, inside - 1, 2);
    }
    model
}

fn nested_coupled(ancestors: usize) -> Builder {
    let mut model = Builder::new();
    let innermost = model.coupled_chain(0, ancestors);
    for inside in 1..=innermost {
        model.couple(inside - 1, 0, inside, 0);
        model.couple(inside, 0, inside - 1, 0);
    }
    model
}

fn phases(counts: &[usize]) -> Builder {
    let mut model = Builder::new();
    counts.iter().for_each(|&count| {
        model.atomic(0, &resting(count));
    });
    model
}

fn advance(advance: u32) -> Builder {
    let mut model = Builder::new();
    let atomic = model.atomic(0, &[phase(advance, 0, &[(3, 65_535)])]);
    model.couple(atomic, 3, 0, 3);
    model
}

/// 32 atomics with four messages each, 32 rows an atomic, all due together.
fn many_at_the_root() -> Builder {
    let mut model = Builder::new();
    for number in 0..32u16 {
        let outputs = [(0, number), (1, 9), (2, 256), (3, 65_535 - number)];
        let atomic = model.atomic(0, &[phase(6, 0, &outputs)]);
        for port in 0..4 {
            model.couple_times(8, atomic, port, 0, 3 - port);
        }
    }
    model
}

/// Each of the four sections at its limit: 64 components, 512 phases, 1,024 rules, 1,024 couplings.
pub fn largest() -> Builder {
    let mut model = Builder::new();
    let innermost = model.coupled_chain(0, 7);
    for number in 0..56u16 {
        let count = if number < 8 { 10 } else { 9 };
        let mut phases: Vec<Phase> =
            (0..count).map(|next| phase(3 + u32::from(number), next, &[(0, number)])).collect();
        phases[0] = phase(NEVER, 0, &[]);
        let parent = if number % 2 == 0 { innermost } else { 0 };
        model.atomic(parent, &phases);
    }
    for number in 0..1_024 {
        let atomic = 8 + number % 56;
        model.rule(rule(atomic, (number % 3) as u8, 7, (number % 9) as u8));
    }
    // Half of the atomics stand under the root; the rest of the rows lead nowhere.
    let outside: Vec<usize> = (8..64).filter(|number| number % 2 == 1).collect();
    outside.iter().for_each(|&atomic| model.couple_times(18, 0, 0, atomic, 0));
    outside.iter().for_each(|&atomic| model.couple_times(18, atomic, 0, 0, 1));
    model.couple_times(8, innermost + 1, 1, innermost, 1);
    model.couple_times(8, innermost, 1, innermost - 1, 1);
    model
}
