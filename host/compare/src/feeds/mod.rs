//! Feeds on models: in the lists of calls, as they are planned and spoilt, and against the advance calls that
//! they stand for.

pub mod arguments;
mod calls;
mod cases;
mod damage;
pub mod in_turn;
mod kinds;
pub mod laws;
mod refused;
pub mod rows;

pub use calls::{any_bytes, at_the_end};
#[cfg(test)]
pub use cases::largest_root_bags;
pub use kinds::{all as kinds, notice};

use crate::special::Special;

/// The cases that come in every run.
pub const CASES: [Special; 10] = [
    rows::all,
    refused::bad_ends,
    refused::bad_feeds,
    cases::damages,
    cases::every_cut,
    cases::every_byte,
    cases::longest,
    cases::gone_on_with,
    cases::among_advances,
    cases::largest_root_bags,
];

/// The names of the boundaries and damages that the cases count.
pub fn names() -> impl Iterator<Item = &'static str> {
    let damages = damage::DAMAGES.iter().map(|damage| damage.name);
    let rows = rows::names().chain(refused::names());
    kinds::names().chain(rows).chain(damages).chain(cases::NAMES)
}
