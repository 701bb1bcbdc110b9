//! Several channels: one to eight runs of one model in equal parts of a buffer, advanced together to one moment
//! under an allowance of steps.

use crate::advance::{advance_accepted, Lent, Steps, Stop};
use crate::answers::{Advanced, Channels, BAD_BAG, BAD_CHANNELS, SUCCESS};
use crate::checks;
use crate::decode::decode;
use crate::limits::{CHANNELS, STEPS_OF_A_CHANNEL};
use crate::model::Model;
use crate::nest::DeadWays;
use crate::observed::Observed;
use crate::records::Message;
use crate::saved_run::SavedRun;

/// Where a channel's bag lies among the bags of a call.
#[derive(Clone, Copy, Debug, Default, PartialEq, Eq)]
pub struct Place {
    pub start: u64,
    pub length: u64,
}

/// Those of all channels, also of ones that are not there.
pub type Places = [Place; CHANNELS];

/// What is asked of the channels of a call: how many they are, the moment, the steps that they may take
/// together, and their bags.
#[derive(Clone, Copy)]
pub struct Asked<'a> {
    pub count: u64,
    pub t: u64,
    pub allowance: u64,
    pub bags: &'a [u8],
    pub places: Places,
}

impl Place {
    /// The bag that lies there; none where it passes the end of the bags.
    pub fn bag_among<'b>(&self, bags: &'b [u8]) -> Option<&'b [u8]> {
        let after_start = bags.get(usize::try_from(self.start).ok()?..)?;
        after_start.get(..usize::try_from(self.length).ok()?)
    }
}

impl Asked<'_> {
    /// The number of runs, where it and the allowance are within their limits.
    pub fn channels(&self) -> Option<usize> {
        let count =
            usize::try_from(self.count).ok().filter(|count| (1..=CHANNELS).contains(count))?;
        (self.allowance >= STEPS_OF_A_CHANNEL * self.count).then_some(count)
    }

    /// A channel's own share. What the division leaves is nobody's.
    pub fn share(&self) -> u64 {
        self.allowance / self.count
    }
}

/// The part of a buffer that belongs to a channel, where there are so many.
fn part(buffer: &mut [u8], count: usize, channel: usize) -> &mut [u8] {
    let length = buffer.len() / count;
    &mut buffer[length * channel..length * (channel + 1)]
}

/// The same of a buffer that is only read.
pub fn part_of(buffer: &[u8], count: usize, channel: usize) -> &[u8] {
    let length = buffer.len() / count;
    &buffer[length * channel..length * (channel + 1)]
}

/// Advances the channels of a call, one after another.
pub fn advance_channels(
    file: &[u8],
    runs: &mut [u8],
    asked: &Asked,
    traces: &mut [u8],
    dead_ways: DeadWays,
    observed: &mut Observed,
) -> Channels {
    let Some(count) = asked.channels() else {
        return Channels::refused(BAD_CHANNELS);
    };
    let model = match decode(file) {
        Ok(model) => model,
        Err(number) => return Channels::refused(number),
    };
    let mut answer = Channels::refused(SUCCESS);
    let mut left_over = 0;
    for channel in 0..count {
        let (run, trace) = (part(runs, count, channel), part(traces, count, channel));
        let has = asked.share() + left_over;
        let advanced = match accept(&model, run, asked, channel) {
            Err(number) => Advanced::refused(number),
            Ok((saved, given)) => {
                let stop = Stop { t: asked.t, given: &given, steps: Steps::AtMost(has) };
                let lent = Lent { trace, rules: &mut [] };
                advance_accepted(&model, saved, run, stop, lent, dead_ways, observed)
            }
        };
        left_over = has - advanced.steps;
        answer.channels[channel] = advanced;
    }
    answer
}

/// A channel's run and bag, or the number by which it is refused alone: its run, then the time, then its bag,
/// first by its place.
fn accept(
    model: &Model,
    run: &[u8],
    asked: &Asked,
    channel: usize,
) -> Result<(SavedRun, Vec<Message>), u64> {
    let saved = SavedRun::read_fitting(model, run)?;
    checks::time(saved.open, asked.t)?;
    let bag = asked.places[channel].bag_among(asked.bags).ok_or(BAD_BAG)?;
    Ok((saved, checks::given(bag)?))
}
