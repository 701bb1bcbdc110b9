//! Damage after the couplings: bytes that are no fifth section (20), ranges that it forbids (7), and bytes after
//! it (2); and what comes before and after them where a file has several faults.

use super::file::with_many_routes;
use super::{place, Damage};
use crate::models::readings::move_apart;
use crate::random::Random;
use reference::limits::{COUPLINGS, UNBOUNDED};
use reference::model::Model;
use reference::ranges::Ranges;
use reference::records::Coupling;

/// Damage that answers the four sections of a model, and what follows them.
macro_rules! tail {
    ($name:literal, $number:literal, $apply:expr) => {
        Damage {
            name: $name,
            number: $number,
            apply: |random, model| {
                let apply: fn(&mut Random, &Model) -> Option<(Model, Vec<u8>)> = $apply;
                let (model, tail) = apply(random, model)?;
                let four_sections = Model { ranges: Ranges::Inclusive, ..model };
                Some([four_sections.encode(), tail].concat())
            },
        }
    };
}

pub const DAMAGES: [Damage; 20] = [
    tail!("20: one byte", 20, |random, model| {
        Some((model.clone(), vec![random.pick(&[0, 1, 1, 2, 255])]))
    }),
    tail!("20: two bytes", 20, |random, model| {
        Some((
            model.clone(),
            random.pick(&[[1, 0], [1, 0], [0, 0], [2, 0], [0, 1], [255, 255]]).to_vec(),
        ))
    }),
    tail!("20: another count", 20, |random, model| Some((model.clone(), another_count(random)))),
    tail!("20: another byte", 20, |random, model| Some((model.clone(), another_byte(random)))),
    tail!("20: any bytes", 20, |random, model| Some((model.clone(), no_section(random)))),
    tail!("20, and too many routes", 20, |random, model| {
        Some((with_many_routes(random, model)?, no_section(random)))
    }),
    tail!("20, and equal elapsed ends", 20, |random, model| {
        Some((with_equal_ends(random, model)?, no_section(random)))
    }),
    tail!("7: equal elapsed ends", 7, |random, model| {
        Some((with_equal_ends(random, model)?, fifth()))
    }),
    tail!("7: equal elapsed ends, both of no end", 7, |random, model| {
        Some((with_ends(random, model, (UNBOUNDED, UNBOUNDED))?, fifth()))
    }),
    tail!("7: equal elapsed ends, and bytes left over", 7, |random, model| {
        Some((with_equal_ends(random, model)?, left_over(random)))
    }),
    tail!("7: equal elapsed ends, and too many routes", 7, |random, model| {
        let model = with_equal_ends(random, model)?;
        Some((with_many_routes(random, &model)?, fifth()))
    }),
    tail!("7: low elapsed above the high one, and a fifth section", 7, |random, model| {
        Some((with_fallen_ends(random, model)?, fifth()))
    }),
    tail!("7: low elapsed above the high one, and no fifth section", 7, |random, model| {
        Some((with_fallen_ends(random, model)?, no_section(random)))
    }),
    tail!("7: low elapsed above the high one, and a bad coupling", 7, |random, model| {
        let model = with_fallen_ends(random, model)?;
        Some((with_bad_coupling(&model)?, fifth()))
    }),
    tail!("8, and equal elapsed ends", 8, |random, model| {
        let model = with_equal_ends(random, model)?;
        Some((with_bad_coupling(&model)?, fifth()))
    }),
    tail!("8, and no fifth section", 8, |random, model| {
        Some((with_bad_coupling(model)?, no_section(random)))
    }),
    tail!("2: bytes after the fifth section", 2, |random, model| {
        Some((apart(model), left_over(random)))
    }),
    tail!("2: the fifth section twice", 2, |_, model| {
        Some((apart(model), [fifth(), fifth()].concat()))
    }),
    tail!("2: bytes after the fifth section, and too many routes", 2, |random, model| {
        Some((with_many_routes(random, &apart(model))?, left_over(random)))
    }),
    tail!("9: too many routes in a half-open model", 9, |random, model| {
        Some((with_many_routes(random, &apart(model))?, fifth()))
    }),
];

fn fifth() -> Vec<u8> {
    vec![1, 0, 2]
}

fn left_over(random: &mut Random) -> Vec<u8> {
    let more = random.pick(&[1, 1, 2, 3, 5, 18]);
    let more = if random.percent(50) { vec![0; more] } else { random.bytes(more) };
    [fifth(), more].concat()
}

/// Some of them right in one byte only, and some with as many bytes as they say.
fn another_count(random: &mut Random) -> Vec<u8> {
    let count: u16 = random.pick(&[0, 0, 2, 3, 256, 257, 513, 65_281, 65_535]);
    let bytes = if random.percent(50) { 1 } else { usize::from(count) };
    [&count.to_le_bytes()[..], &vec![2; bytes]].concat()
}

fn another_byte(random: &mut Random) -> Vec<u8> {
    vec![1, 0, random.pick(&[0, 1, 3, 4, 18, 130, 255])]
}

/// Bytes that do not begin as a fifth section does.
fn no_section(random: &mut Random) -> Vec<u8> {
    let length = random.between(1, 18) as usize;
    let any = random.bytes(length);
    match random.below(4) {
        0 => vec![0; length],
        1 => another_count(random),
        2 => another_byte(random),
        _ if any.starts_with(&[1, 0, 2]) => vec![1],
        _ => any,
    }
}

fn with_ends(random: &mut Random, model: &Model, ends: (u32, u32)) -> Option<Model> {
    let mut model = apart(model);
    let at = place(random, &model.rules, |_| true)?;
    (model.rules[at].low_elapsed, model.rules[at].high_elapsed) = ends;
    Some(model)
}

fn with_equal_ends(random: &mut Random, model: &Model) -> Option<Model> {
    let end = random.pick(&[0, 0, 1, 5, 256, 500, UNBOUNDED - 1, UNBOUNDED]);
    with_ends(random, model, (end, end))
}

/// The low end one above the high one, or alike in its low bytes.
fn with_fallen_ends(random: &mut Random, model: &Model) -> Option<Model> {
    let ends =
        random.pick(&[(1, 0), (501, 500), (256, 0), (65_541, 5), (UNBOUNDED, UNBOUNDED - 1)]);
    with_ends(random, model, ends)
}

/// The model without equal ends, whichever reading it has.
fn apart(model: &Model) -> Model {
    let mut model = model.clone();
    model.rules.iter_mut().for_each(move_apart);
    model
}

/// A row of the root with itself, at its place in the order.
fn with_bad_coupling(model: &Model) -> Option<Model> {
    if model.couplings.len() == COUPLINGS {
        return None;
    }
    let mut model = model.clone();
    model.couplings.insert(0, Coupling::default());
    Some(model)
}
