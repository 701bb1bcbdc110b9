//! A feed on lent buffers, with any way of taking a step: one check of the model, one load of the run, the
//! bags in turn, and the run written back once.

use super::advance::{bag_is_legal, run_to, Accepted, Lent, Simulator, Stop};
use super::held::Held;
use super::model_file::ModelFile;
use super::tables::Tables;
use super::unchecked::{at, u16_at, u64_at};
use reference::answers::{Fed, BAD_FEED, BAD_TIME};
use reference::feed::{BAG_HEAD_BYTES, HEAD_BYTES};
use reference::limits;
use reference::records::Message;

/// A feed whose bytes were judged, and what the times are judged by.
struct Feed<'f> {
    bytes: &'f [u8],
    bags: usize,
    first: Option<u64>,
    last: Option<u64>,
}

impl<'f> Feed<'f> {
    /// Goes over the bytes once. None where they are no feed.
    fn read(bytes: &'f [u8]) -> Option<Feed<'f>> {
        let mut rest = bytes.get(HEAD_BYTES..)?;
        let mut feed = Feed { bytes, bags: usize::from(u16_at(bytes, 0)), first: None, last: None };
        if feed.bags > limits::FEED_BAGS {
            return None;
        }
        for _ in 0..feed.bags {
            if rest.len() < BAG_HEAD_BYTES {
                return None;
            }
            let moment = u64_at(rest, 0);
            let given = rest.get(BAG_HEAD_BYTES..BAG_HEAD_BYTES + given_bytes(rest))?;
            let rises = feed.last.is_none_or(|last| last < moment);
            if !rises || moment > limits::HIGHEST_TIME || !bag_is_legal(given) {
                return None;
            }
            feed.first = feed.first.or(Some(moment));
            feed.last = Some(moment);
            rest = &rest[BAG_HEAD_BYTES + given.len()..];
        }
        rest.is_empty().then_some(feed)
    }

    /// Its bags, and the end where that lies past them.
    fn stops(&self, end: u64) -> impl Iterator<Item = Stop<'f>> {
        let mut rest = &self.bytes[HEAD_BYTES..];
        let bags = (0..self.bags).map(move |_| {
            let (t, length) = (u64_at(rest, 0), given_bytes(rest));
            let given = &rest[BAG_HEAD_BYTES..BAG_HEAD_BYTES + length];
            rest = &rest[BAG_HEAD_BYTES + length..];
            Stop { t, given }
        });
        let is_past = self.last.is_none_or(|last| last < end);
        bags.chain(is_past.then_some(Stop { t: end, given: &[] }))
    }
}

/// The bytes of the messages of the bag at the front.
#[inline(always)]
fn given_bytes(bag: &[u8]) -> usize {
    Message::BYTES * usize::from(at(bag, BAG_HEAD_BYTES - 1))
}

/// Runs a feed to an end moment.
pub fn advance_feed<S: Simulator>(
    file: &[u8],
    run: &mut [u8],
    end: u64,
    feed: &[u8],
    trace: &mut [u8],
) -> Fed {
    let model = match ModelFile::read(file) {
        Ok(model) => model,
        Err(number) => return Fed::refused(number),
    };
    let mut tables = Tables::empty();
    if let Err(number) = tables.fill(&model) {
        return Fed::refused(number);
    }
    let (open, held) = match Held::load(&model, &tables, run) {
        Ok(loaded) => loaded,
        Err(number) => return Fed::refused(number),
    };
    let Some(feed) = Feed::read(feed) else {
        return Fed::refused(BAD_FEED);
    };
    let before_the_last = feed.last.is_some_and(|last| end < last);
    if before_the_last || end > limits::HIGHEST_TIME || feed.first.unwrap_or(end) < open {
        return Fed::refused(BAD_TIME);
    }
    let accepted = Accepted { model: &model, tables: &tables };
    let lent = Lent { run, trace, rules: &mut [] };
    let (answer, arrived) = run_to::<S>(accepted, open, held, feed.stops(end), lent);
    Fed {
        number: answer.number,
        bags: arrived.min(feed.bags as u64),
        instants: answer.instants,
        steps: answer.steps,
        trace_bytes: answer.trace_bytes,
    }
}
