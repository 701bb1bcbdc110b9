//! The rules that decided, kept only where a table is lent that has room for them: a call without one is
//! compiled without any of this.

use super::unchecked::{at, put, put_bytes};
use reference::limits::{COMPONENTS, NO_RULE};

pub trait Lights {
    /// An instant begins with nothing lit.
    fn begin(&mut self);

    /// Notes the rule of an external part, by the atomic's position.
    fn light(&mut self, position: usize, rule: u16);

    /// The instant stands.
    fn keep(&mut self);

    /// Writes what the last instant that stands has lit.
    fn write(&self, atomics: usize, rules: &mut [u8]);
}

/// For a call without a table.
pub struct Dark;

impl Lights for Dark {
    #[inline(always)]
    fn begin(&mut self) {}

    #[inline(always)]
    fn light(&mut self, _: usize, _: u16) {}

    #[inline(always)]
    fn keep(&mut self) {}

    #[inline(always)]
    fn write(&self, _: usize, _: &mut [u8]) {}
}

/// The entries of the instant at hand, and of the last one that stands.
pub struct Lit {
    here: [u16; COMPONENTS],
    last: [u16; COMPONENTS],
}

impl Lit {
    pub fn new() -> Lit {
        Lit { here: [NO_RULE; COMPONENTS], last: [NO_RULE; COMPONENTS] }
    }
}

impl Lights for Lit {
    #[inline(always)]
    fn begin(&mut self) {
        self.here = [NO_RULE; COMPONENTS];
    }

    #[inline(always)]
    fn light(&mut self, position: usize, rule: u16) {
        put(&mut self.here, position, rule);
    }

    #[inline(always)]
    fn keep(&mut self) {
        self.last = self.here;
    }

    fn write(&self, atomics: usize, rules: &mut [u8]) {
        for position in 0..atomics {
            put_bytes(rules, 2 * position, at(&self.last, position).to_le_bytes());
        }
    }
}
