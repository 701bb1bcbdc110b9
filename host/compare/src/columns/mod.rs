//! Traces by column, and back. The traces of all runs that are compared are rearranged, by themselves and
//! joined; so are made-up ones, whole and spoilt.

mod cases;
mod damage;
pub mod joined;
pub mod kinds;
mod made_up;
pub mod rearranging;
pub mod rows;

pub use cases::random_trace;
#[cfg(test)]
pub use cases::{long_ones, many_messages};

use crate::special::Special;

/// The cases that come in every run.
pub const CASES: [Special; 8] = [
    rows::all,
    cases::damages,
    cases::every_cut,
    cases::every_byte,
    cases::long_ones,
    cases::many_messages,
    cases::joined,
    cases::joined_over_models,
];

/// The names of the boundaries and damages that the cases count.
pub fn names() -> impl Iterator<Item = &'static str> {
    let damages = damage::all().map(|damage| damage.name);
    let rows = rows::names().chain([joined::OVER_13]);
    rearranging::names().chain(rows).chain(damages).chain(cases::NAMES)
}

/// The kinds of traces that are looked for, none of them met.
pub fn kinds() -> impl Iterator<Item = (&'static str, u64)> {
    kinds::all().chain(joined::all())
}
