//! The traces of successive advances and feeds, joined in turn: one trace, whatever came between them but a
//! start.

use super::rearranging::Way;
use crate::call::Call;
use crate::comparison::{Compared, Comparison, Outcome};
use crate::counts::Counts;

/// Few random models go on after an endless instant: it has to come from a bag.
pub const OVER_13: &str = "joined: over an advance that 13 stopped";

/// What the advances and feeds of a list have written since the last start, and what came since the last
/// records.
#[derive(Default)]
pub struct Joined {
    trace: Vec<u8>,
    started: bool,
    since: Since,
}

/// Whether these came.
#[derive(Clone, Copy, Default)]
struct Since {
    after_feed: bool,
    refused: bool,
    no_record: bool,
    stopped_by_13: bool,
    stopped_by_15: bool,
    reading: bool,
}

/// What there was between two calls that have written records, by name, and whether the second is a feed.
fn kinds(since: Since, started: bool, is_feed: bool) -> impl Iterator<Item = (&'static str, u64)> {
    let kinds = [
        ("joined: traces of several advances", !since.after_feed && !is_feed),
        ("joined: trace of a feed behind others", is_feed),
        ("joined: traces behind that of a feed", since.after_feed),
        ("joined: in a run that no start wrote", !started),
        ("joined: over an advance that was refused", since.refused),
        ("joined: over an advance that wrote no record", since.no_record),
        ("joined: over an advance that 15 stopped", since.stopped_by_15),
        ("joined: over a reading", since.reading),
    ];
    kinds.into_iter().map(|(name, met)| (name, u64::from(met)))
}

/// Every kind that is looked for, none of them met.
pub fn all() -> impl Iterator<Item = (&'static str, u64)> {
    kinds(Since::default(), true, false).map(|(name, _)| (name, 0))
}

impl Joined {
    /// Takes note of a call. Answers whether it has put records behind those of earlier calls.
    fn add(&mut self, counts: &mut Counts, call: &Call, outcome: &Outcome) -> bool {
        let (number, records) = (outcome.answer.number(), outcome.records());
        let is_feed = matches!(call, Call::Feed { .. });
        let is_advance = is_feed || matches!(call, Call::Advance { .. });
        if matches!(call, Call::Start) && number == 0 {
            *self = Joined { started: true, ..Joined::default() };
        }
        let is_joined = !records.is_empty() && !self.trace.is_empty();
        if is_joined {
            counts.kinds(kinds(self.since, self.started, is_feed));
            if self.since.stopped_by_13 {
                counts.meet(OVER_13);
            }
        }
        if !records.is_empty() {
            self.trace.extend(records);
            self.since = Since { after_feed: is_feed, ..Since::default() };
        }
        let since = &mut self.since;
        since.reading |= matches!(call, Call::Read { .. });
        since.refused |= is_advance && matches!(number, 1..=12 | 19);
        since.no_record |= is_advance && number == 0 && records.is_empty();
        since.stopped_by_13 |= is_advance && number == 13;
        since.stopped_by_15 |= is_advance && number == 15;
        is_joined
    }
}

impl Comparison {
    /// Rearranges what an advance or a feed has written, by itself and behind what those before it have.
    pub fn rearrange_run(
        &mut self,
        joined: &mut Joined,
        call: &Call,
        outcome: &Outcome,
    ) -> Compared<()> {
        let is_joined = joined.add(&mut self.counts, call, outcome);
        if matches!(call, Call::Advance { .. } | Call::Feed { .. }) {
            let found = self.there_and_back(Way::There, outcome.records());
            found.map_err(|fault| format!("what a call wrote, {fault}"))?;
        }
        if is_joined {
            let found = self.there_and_back(Way::There, &joined.trace);
            found.map_err(|fault| format!("what calls in turn wrote, {fault}"))?;
        }
        Ok(())
    }
}
