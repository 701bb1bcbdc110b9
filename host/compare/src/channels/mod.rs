//! Calls on several channels: in lists of calls, at their edges, and against the single advances of the channels.

pub mod arguments;
mod calls;
mod cases;
mod kinds;
pub mod laws;
mod models;
pub mod promises;
mod refused;
pub mod rows;

pub use calls::{at_random, on_any_file};
pub use kinds::{all as kinds, notice};

use crate::special::Special;
pub use reference::channels::part_of as part;

/// The cases that come in every run.
pub const CASES: [Special; 9] = [
    rows::all,
    cases::every_number_in_every_position,
    cases::out_of_steps_in_every_position,
    cases::called_again,
    cases::one_run_buffer_for_all_calls,
    refused::counts_and_allowances,
    refused::model_numbers,
    refused::places,
    refused::lengths,
];

/// The names of the boundaries that the cases count.
pub fn names() -> impl Iterator<Item = &'static str> {
    kinds::names().chain(rows::names()).chain(cases::NAMES).chain(refused::names())
}
