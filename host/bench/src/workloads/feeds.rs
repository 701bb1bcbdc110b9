//! Feeds of as many bags as there may be: one call that checks the model and loads the run once, beside the
//! thousand calls that it stands for.

use super::{calls, stations, Advance, Workload};
use reference::builder::bag;
use reference::limits::FEED_BAGS;

const BAGS: u64 = FEED_BAGS as u64;
/// A thousand cues in a day.
const BETWEEN_CUES: u64 = 86_400;

pub fn all() -> Vec<Workload> {
    let cues =
        (0..BAGS).map(|cue| Advance { t: cue * BETWEEN_CUES, bag: bag(&[(0, stations::CUE)]) });
    let chain = stations::chain_for_cues(15);
    vec![
        Workload::with_calls("feed, small", &calls::small(), calls::bag_calls(BAGS)).fed(),
        Workload::with_calls("feed, maximal", &calls::maximal(), calls::bag_calls(BAGS)).fed(),
        Workload::with_calls("feed, 15 stations", &chain, cues.collect()).fed(),
    ]
}
