//! How the elapsed ranges of a model's rules are read, and the fifth section of a file, which says so.

use crate::limits::UNBOUNDED;
use crate::records::Rule;

/// One reading for all rules of a model.
#[derive(Clone, Copy, Debug, Default, PartialEq, Eq)]
pub enum Ranges {
    /// The high end belongs to the range: "Four-section files keep the inclusive reading."
    #[default]
    Inclusive,
    /// The range stops short of its high end, as the fifth section says.
    HalfOpen,
}

impl Ranges {
    /// The fifth section: "count 1, then the byte 2".
    pub const SECTION: [u8; 3] = [1, 0, 2];

    /// Whether an elapsed time lies in a rule's range.
    pub fn holds(self, rule: &Rule, elapsed: u64) -> bool {
        let high = u64::from(rule.high_elapsed);
        let ends_later = match self {
            _ if rule.high_elapsed == UNBOUNDED => true,
            Ranges::Inclusive => elapsed <= high,
            Ranges::HalfOpen => elapsed < high,
        };
        u64::from(rule.low_elapsed) <= elapsed && ends_later
    }

    /// Whether a rule may stand in a model that is read so: in a half-open one "low elapsed must be below
    /// high elapsed". That it is not above is a line of the record, whatever the reading.
    pub fn allows(self, rule: &Rule) -> bool {
        self == Ranges::Inclusive || rule.low_elapsed < rule.high_elapsed
    }

    /// Writes the section that says so, if there is one.
    pub fn write(self, out: &mut Vec<u8>) {
        if self == Ranges::HalfOpen {
            out.extend(Ranges::SECTION);
        }
    }
}
