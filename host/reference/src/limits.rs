//! The limits that the papers set, each named once.

pub const COMPONENTS: usize = 64;
/// How many ancestors a component may have, the root counted as one.
pub const ANCESTORS: usize = 8;
pub const PHASES_OF_AN_ATOMIC: u8 = 64;
pub const PHASES: usize = 512;
pub const RULES: usize = 1_024;
pub const COUPLINGS: usize = 1_024;
pub const ROUTES: u64 = 1_024;

pub const HIGHEST_PORT: u8 = 3;
pub const OUTPUTS_OF_A_PHASE: u8 = 4;
pub const LONGEST_ADVANCE: u32 = 1_000_000_000;
/// As an advance: never due. As a high elapsed: no upper end.
pub const UNBOUNDED: u32 = 4_294_967_295;

pub const HIGHEST_TIME: u64 = 1_000_000_000_000;
pub const HIGHEST_OPEN_MOMENT: u64 = HIGHEST_TIME + 1;
pub const GIVEN_MESSAGES: usize = 16;
pub const FEED_BAGS: usize = 1_000;
pub const STEPS_OF_AN_INSTANT: u64 = 1_024;
/// The most runs that a call advances together.
pub const CHANNELS: usize = 8;
/// The fewest steps that such a call may allow for each of them.
pub const STEPS_OF_A_CHANNEL: u64 = 1_024;
/// The most messages that reach the root in a step: all routes end there, and each carries all that an atomic
/// puts out. It follows from the limits of a model, and no call tests it.
pub const ROOT_BAG: usize = ROUTES as usize * OUTPUTS_OF_A_PHASE as usize;
/// The most messages that reach an atomic in a step: all routes end there, and each carries all that is given.
pub const ATOMIC_BAG: usize = ROUTES as usize * GIVEN_MESSAGES;
/// The most records of a trace that is stored by column.
pub const RECORDS: usize = 4_294_967_295;

/// In a rules table: no rule.
pub const NO_RULE: u16 = 65_535;

/// The next due moment that reading answers where nothing is ever due.
pub const NEVER_DUE: u64 = u64::MAX;
