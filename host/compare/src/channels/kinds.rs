//! What the calls on channels had in them, and what became of their channels.

use super::part;
use crate::call::{Answer, Call, OnChannels};
use crate::counts::Counts;
use crate::runs::open_moment;
use reference::limits::{CHANNELS, HIGHEST_TIME, STEPS_OF_A_CHANNEL};
use reference::model::Model;
use reference::saved_run;
use reference::{Advanced, Channels, Place, Places};

/// The boundaries that `notice` looks for.
const NOTICED: [&str; 4] = [
    "channels: t is 10^12 + 1",
    "channels: 13 after instants done",
    "channels: part of a run one byte too short",
    "channels: 21, one step below the least allowance",
];

pub fn names() -> impl Iterator<Item = &'static str> {
    NOTICED.into_iter()
}

/// A call whose channels were answered.
struct Ran<'r> {
    call: &'r OnChannels,
    runs_before: &'r [u8],
    entries: &'r [Advanced],
}

/// Every kind that is looked for, none of them met.
pub fn all() -> impl Iterator<Item = (&'static str, u64)> {
    let places = Places::default();
    let call =
        OnChannels { count: 1, t: 0, allowance: 1_024, bags: vec![], places, traces: vec![] };
    let entries = [Advanced::refused(0)];
    let none = Ran { call: &call, runs_before: &[], entries: &entries };
    none.kinds().into_iter().map(|(name, _)| (name, 0)).collect::<Vec<_>>().into_iter()
}

impl Ran<'_> {
    fn kinds(&self) -> Vec<(&'static str, bool)> {
        [self.of_buffers().to_vec(), self.of_places().to_vec(), self.of_steps()].concat()
    }

    fn of_buffers(&self) -> [(&'static str, bool); 7] {
        let count = self.entries.len();
        let lengths = [self.runs_before, &self.call.traces].map(<[u8]>::len);
        let [runs, traces] = lengths.map(|length| !length.is_multiple_of(count));
        let done = self.entries.iter().any(|entry| entry.instants > 0);
        let opens: Vec<u64> =
            (0..count).map(|channel| open_moment(part(self.runs_before, count, channel))).collect();
        [
            ("channels: one", count == 1),
            ("channels: some", (2..CHANNELS).contains(&count)),
            ("channels: as many as may be", count == CHANNELS),
            ("channels: runs with bytes beyond the parts", runs),
            ("channels: traces with bytes beyond the parts", traces),
            ("channels: no byte of trace, and an instant done", lengths[1] < count && done),
            ("channels: several open moments", opens.iter().any(|open| *open != opens[0])),
        ]
    }

    fn of_places(&self) -> [(&'static str, bool); 5] {
        let end = self.call.bags.len() as u64;
        let placed = || self.call.places.iter().zip(self.entries);
        let taken_at = |place: &Place| {
            let is_taken = |entry: &Advanced| matches!(entry.number, 0 | 13 | 15);
            placed().filter(|(other, entry)| *other == place && is_taken(entry)).count()
        };
        let shared = placed().any(|(place, _)| place.length > 0 && taken_at(place) > 1);
        let is_past = |place: &Place| place.bag_among(&self.call.bags).is_none();
        let by_12 = || placed().filter(|(_, entry)| entry.number == 12).map(|(place, _)| place);
        let at_the_end = Place { start: end, length: 0 };
        [
            ("channels: two bags at one place", shared),
            ("channels: empty bag at the end", end > 0 && taken_at(&at_the_end) > 0),
            ("channels: 12 by the bag", by_12().any(|place| !is_past(place))),
            ("channels: 12 by the place", by_12().any(is_past)),
            (
                "channels: 12 by a place of length 0",
                by_12().any(|place| place.length == 0 && is_past(place)),
            ),
        ]
    }

    fn of_steps(&self) -> Vec<(&'static str, bool)> {
        let asked = self.call.asked();
        let (share, entries) = (asked.share(), self.entries);
        let is_out = |entry: &Advanced| entry.number == 22;
        // A channel that uses what one like this before it has left over.
        let uses = |left: &dyn Fn(&Advanced) -> bool| {
            let mut before = false;
            entries.iter().any(|entry| {
                let uses = before && entry.steps > share;
                before |= left(entry);
                uses
            })
        };
        let waits = |(place, entry): (&Place, &Advanced)| is_out(entry) && place.length > 0;
        let remainder = !asked.allowance.is_multiple_of(asked.count);
        vec![
            ("channels: least allowance", asked.allowance == STEPS_OF_A_CHANNEL * asked.count),
            ("channels: a remainder, and out of steps", remainder && entries.iter().any(is_out)),
            ("channels: uses what a quiet one left", uses(&|entry| *entry == Advanced::refused(0))),
            (
                "channels: uses what a refused one left",
                uses(&|entry| matches!(entry.number, 10..=12)),
            ),
            ("channels: uses what a busy one left", uses(&|entry| entry.steps > 0)),
            (
                "channels: more than two shares",
                entries.iter().any(|entry| entry.steps > share.saturating_mul(2)),
            ),
            ("channels: out of steps with a bag", self.call.places.iter().zip(entries).any(waits)),
            (
                "channels: out of steps before one that is not",
                entries.windows(2).any(|two| is_out(&two[0]) && two[1].number == 0),
            ),
            (
                "channels: 15 after instants done",
                entries.iter().any(|entry| entry.number == 15 && entry.instants > 0),
            ),
        ]
    }
}

/// Counts what a call on channels of an accepted model met.
pub fn notice(
    counts: &mut Counts,
    model: Option<&Model>,
    call: &Call,
    answer: &Answer,
    runs_before: &[u8],
) {
    let (Some(model), Call::Channels(call), Answer::Channels(answer)) = (model, call, answer)
    else {
        return;
    };
    let Channels { number, channels } = answer;
    if *number == 21 && call.allowance == (STEPS_OF_A_CHANNEL * call.count.clamp(1, 8)) - 1 {
        counts.meet(NOTICED[3]);
    }
    let Some(count) = call.asked().channels().filter(|_| *number == 0) else {
        return;
    };
    let entries = &channels[..count];
    for (channel, entry) in entries.iter().enumerate() {
        counts.number_of_channel(channel, entry.number);
    }
    let any = |number: u64| entries.iter().any(|entry| entry.number == number);
    let short = runs_before.len() / count + 1 == saved_run::length(model.atomics().len());
    let after_instants = entries.iter().any(|entry| entry.number == 13 && entry.instants > 0);
    for (name, met) in [
        (NOTICED[0], any(11) && call.t == HIGHEST_TIME + 1),
        (NOTICED[1], after_instants),
        (NOTICED[2], any(10) && short),
    ] {
        if met {
            counts.meet(name);
        }
    }
    let ran = Ran { call, runs_before, entries };
    counts.kinds(ran.kinds().into_iter().map(|(name, met)| (name, u64::from(met))));
}
