//! The engines that are measured, all behind the same functions.

use crate::shared::advance::check_model;
use crate::{flat_rows, pulled};
pub use reference::engine::{Engine, Functions, NEST};

/// Start, reading and flattening are not measured, so the yardsticks take those of the reference.
pub const PULLED: Functions = Functions {
    advance: pulled::advance,
    advance_feed: pulled::advance_feed,
    advance_channels: pulled::advance_channels,
    ..YARDSTICK
};
pub const FLAT_ROWS: Functions = Functions {
    advance: flat_rows::advance,
    advance_feed: flat_rows::advance_feed,
    advance_channels: flat_rows::advance_channels,
    ..YARDSTICK
};

const YARDSTICK: Functions = Functions { check_model, ..NEST };

/// The engines of this build, by name. The first two are the yardsticks.
pub fn engines() -> Vec<(&'static str, Functions)> {
    vec![
        ("pulled", PULLED),
        ("flat rows", FLAT_ROWS),
        #[cfg(feature = "library")]
        ("library", library::FUNCTIONS),
    ]
}
