//! Damaged models: a good model with one line broken, and the number that it must get for it.
//!
//! What comes after the section with the damage is no longer read, so it may be spoilt as well.

mod components;
mod couplings;
mod file;
mod phases;
mod rules;
mod tail;

use crate::random::Random;
use reference::model::Model;
use reference::records::{Component, Coupling, Phase, Rule};

/// One way to break a model. It answers the file, or none where the model has nothing to break so.
pub struct Damage {
    pub name: &'static str,
    pub number: u64,
    pub apply: fn(&mut Random, &Model) -> Option<Vec<u8>>,
}

/// Every kind of damage.
pub fn all() -> Vec<&'static Damage> {
    let tables: [&[Damage]; 6] = [
        &components::DAMAGES,
        &phases::DAMAGES,
        &rules::DAMAGES,
        &couplings::DAMAGES,
        &file::DAMAGES,
        &tail::DAMAGES,
    ];
    tables.into_iter().flatten().collect()
}

/// Where each of the four sections begins in a model's file, and where the last of them ends.
pub fn sections(model: &Model) -> [usize; 5] {
    let lengths = [
        2 + Component::BYTES * model.components.len(),
        2 + Phase::BYTES * model.phases.len(),
        2 + Rule::BYTES * model.rules.len(),
        2 + Coupling::BYTES * model.couplings.len(),
    ];
    let mut places = [0; 5];
    for (section, length) in lengths.into_iter().enumerate() {
        places[section + 1] = places[section] + length;
    }
    places
}

/// The model's file, where nothing from the end of the section on needs to be in order: in half of
/// the cases it is cut there, spoilt or continued.
fn spoilt_after(random: &mut Random, model: &Model, section: usize) -> Vec<u8> {
    let end = sections(model)[section + 1];
    spoilt_from(random, model.encode(), end)
}

fn spoilt_from(random: &mut Random, mut file: Vec<u8>, end: usize) -> Vec<u8> {
    match random.below(8) {
        0 => file.truncate(end),
        1 => file.truncate(end + random.index(file.len() - end + 1)),
        2 => {
            let more = random.index(50);
            let more = random.bytes(more);
            file.truncate(end);
            file.extend(more);
        }
        3 => {
            for byte in &mut file[end..] {
                *byte = random.next() as u8;
            }
        }
        _ => {}
    }
    file
}

/// The place of a record for which a condition holds.
fn place<T>(random: &mut Random, records: &[T], condition: impl Fn(&T) -> bool) -> Option<usize> {
    let places: Vec<usize> =
        (0..records.len()).filter(|&place| condition(&records[place])).collect();
    (!places.is_empty()).then(|| random.pick(&places))
}
