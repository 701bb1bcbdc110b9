//! Several channels on lent buffers, with any way of taking a step: one check of the model and one fill of the
//! tables for all of them, then each run loaded, advanced and written back.

use super::advance::{bag_is_legal, Accepted, AtMost, Call, Lent, Simulator, Stop};
use super::held::Held;
use super::model_file::ModelFile;
use super::tables::Tables;
use reference::answers::{Advanced, Channels, BAD_BAG, BAD_CHANNELS, BAD_TIME, SUCCESS};
use reference::{limits, Asked};

/// Advances the channels of a call.
pub fn advance_channels<S: Simulator>(
    file: &[u8],
    runs: &mut [u8],
    asked: &Asked,
    traces: &mut [u8],
) -> Channels {
    let Some(count) = asked.channels() else {
        return Channels::refused(BAD_CHANNELS);
    };
    let model = match ModelFile::read(file) {
        Ok(model) => model,
        Err(number) => return Channels::refused(number),
    };
    let mut tables = Tables::empty();
    if let Err(number) = tables.fill(&model) {
        return Channels::refused(number);
    }
    let accepted = Accepted { model: &model, tables: &tables };
    let call = Call { simulator: S::new(&accepted), accepted };
    call.with_buffers(|call, buffers| {
        let (run_length, trace_length) = (runs.len() / count, traces.len() / count);
        let mut answer = Channels::refused(SUCCESS);
        let mut has = 0;
        for (channel, entry) in answer.channels.iter_mut().enumerate().take(count) {
            let run = &mut runs[run_length * channel..run_length * (channel + 1)];
            let trace = &mut traces[trace_length * channel..trace_length * (channel + 1)];
            has += asked.share();
            *entry = match loaded(&call.accepted, run, asked, channel) {
                Ok((open, held, given)) => {
                    let state = &mut call.simulator.state(&call.accepted, held);
                    let stops = std::iter::once(Stop { t: asked.t, given });
                    let lent = Lent { run, trace, rules: &mut [] };
                    call.run(open, state, stops, AtMost(has), lent, buffers).0
                }
                Err(number) => Advanced::refused(number),
            };
            has -= entry.steps;
        }
        answer
    })
}

/// A channel's open moment, state and bag, or the number by which it is refused.
fn loaded<'a>(
    accepted: &Accepted,
    run: &[u8],
    asked: &Asked<'a>,
    channel: usize,
) -> Result<(u64, Held, &'a [u8]), u64> {
    let (open, held) = Held::load(accepted.model, accepted.tables, run)?;
    if asked.t < open || asked.t > limits::HIGHEST_TIME {
        return Err(BAD_TIME);
    }
    let given = asked.places[channel].bag_among(asked.bags).filter(|given| bag_is_legal(given));
    Ok((open, held, given.ok_or(BAD_BAG)?))
}
