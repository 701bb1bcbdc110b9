//! Channels of the flat machine: its state is the bytes of all runs, cut into equal parts that change one after
//! another. Every channel adds its share to one store of steps, and what it does is taken out of that.

use super::{changed, open_moment, Machine};
use crate::answers::{Advanced, Channels, BAD_BAG, BAD_CHANNELS, BAD_TIME, SUCCESS};
use crate::channels::{Asked, Place};
use crate::checks;
use crate::decode::decode;
use crate::limits::HIGHEST_TIME;
use crate::model::Model;
use crate::records::Message;
use crate::saved_run::SavedRun;

pub fn advance_channels(
    flat: &[u8],
    runs: &mut [u8],
    asked: &Asked,
    traces: &mut [u8],
) -> Channels {
    let count = u128::from(asked.count);
    if !(1..=8).contains(&count) || u128::from(asked.allowance) < 1_024 * count {
        return Channels::refused(BAD_CHANNELS);
    }
    let model = match decode(flat) {
        Ok(model) => model,
        Err(number) => return Channels::refused(number),
    };
    let machine = Machine::new(&model);
    let share = asked.allowance / asked.count;
    let mut store = 0;
    let mut answer = Channels::refused(SUCCESS);
    let (mut runs_left, mut traces_left) = (runs, traces);
    let (run_bytes, trace_bytes) =
        [runs_left.len(), traces_left.len()].map(|bytes| bytes / asked.count as usize).into();
    for (place, advanced) in asked.places.iter().zip(&mut answer.channels).take(count as usize) {
        let (run, trace);
        (run, runs_left) = runs_left.split_at_mut(run_bytes);
        (trace, traces_left) = traces_left.split_at_mut(trace_bytes);
        store += share;
        *advanced = match given(&model, run, asked, place) {
            Ok(given) => {
                let rules = &mut [];
                machine.take_instants(&mut changed, run, asked.t, &given, Some(store), trace, rules)
            }
            Err(number) => Advanced::refused(number),
        };
        store -= advanced.steps;
    }
    answer
}

/// The bag of a channel, or the number by which the channel is refused.
fn given(model: &Model, run: &[u8], asked: &Asked, place: &Place) -> Result<Vec<Message>, u64> {
    SavedRun::read_fitting(model, run)?;
    if !(open_moment(run)..=HIGHEST_TIME).contains(&asked.t) {
        return Err(BAD_TIME);
    }
    let ends = u128::from(place.start) + u128::from(place.length);
    if ends > asked.bags.len() as u128 {
        return Err(BAD_BAG);
    }
    checks::given(&asked.bags[place.start as usize..ends as usize])
}
