//! A feed: bags prepared beforehand. Its byte form, and running it to an end moment by its advance calls.

use crate::answers::{Advanced, Fed, BAD_FEED, BAD_TIME, SUCCESS};
use crate::checks;
use crate::limits::{FEED_BAGS, GIVEN_MESSAGES, HIGHEST_PORT, HIGHEST_TIME};
use crate::little_endian::{u16_at, u64_at};
use crate::records::Message;

/// The bytes of the bag count.
pub const HEAD_BYTES: usize = 2;
/// The bytes of a bag before its messages: moment (8) and message count (1).
pub const BAG_HEAD_BYTES: usize = 9;

#[derive(Clone, Debug, Default, PartialEq, Eq)]
pub struct FeedBag {
    pub moment: u64,
    pub messages: Vec<Message>,
}

impl FeedBag {
    /// The messages as the given bag of an advance call.
    pub fn given(&self) -> Vec<u8> {
        let mut bytes = Vec::new();
        self.messages.iter().for_each(|message| message.write(&mut bytes));
        bytes
    }

    fn write(&self, out: &mut Vec<u8>) {
        out.extend(self.moment.to_le_bytes());
        out.push(u8::try_from(self.messages.len()).expect("a message count has one byte"));
        out.extend(self.given());
    }

    /// The bag at the front of some bytes, and the bytes after it; none where it is cut.
    fn read(bytes: &[u8]) -> Option<(FeedBag, &[u8])> {
        let (head, rest) = bytes.split_at_checked(BAG_HEAD_BYTES)?;
        let (messages, rest) = rest.split_at_checked(Message::BYTES * usize::from(head[8]))?;
        let messages = messages.chunks_exact(Message::BYTES).map(Message::read).collect();
        Some((FeedBag { moment: u64_at(head, 0), messages }, rest))
    }
}

/// The bytes of a feed. Nothing is checked here: whether they are one is for `read` to say.
pub fn encode(bags: &[FeedBag]) -> Vec<u8> {
    let count = u16::try_from(bags.len()).expect("a bag count has two bytes");
    let mut bytes = count.to_le_bytes().to_vec();
    bags.iter().for_each(|bag| bag.write(&mut bytes));
    bytes
}

/// The bags that bytes tell, whatever they have in them; none where one is cut or bytes are left over.
fn bags_told(feed: &[u8]) -> Option<Vec<FeedBag>> {
    let (head, mut rest) = feed.split_at_checked(HEAD_BYTES)?;
    let mut bags = Vec::new();
    for _ in 0..u16_at(head, 0) {
        let (bag, after) = FeedBag::read(rest)?;
        bags.push(bag);
        rest = after;
    }
    rest.is_empty().then_some(bags)
}

/// Whether bags keep the lines of a feed: at most 1,000 of them, each with 16 messages at most on ports 0 to
/// 3, at moments that rise strictly, up to the highest.
fn are_in_order(bags: &[FeedBag]) -> bool {
    let none_is_late = bags.iter().all(|bag| bag.moment <= HIGHEST_TIME);
    let moments_rise = bags.windows(2).all(|two| two[0].moment < two[1].moment);
    let none_is_full = bags.iter().all(|bag| bag.messages.len() <= GIVEN_MESSAGES);
    let mut messages = bags.iter().flat_map(|bag| &bag.messages);
    let ports_exist = messages.all(|message| message.port <= HIGHEST_PORT);
    bags.len() <= FEED_BAGS && none_is_late && moments_rise && none_is_full && ports_exist
}

/// The bags of a feed, or the number by which it is refused.
pub fn read(feed: &[u8]) -> Result<Vec<FeedBag>, u64> {
    bags_told(feed).filter(|bags| are_in_order(bags)).ok_or(BAD_FEED)
}

/// The bags to run to an end moment, or the number by which the feed or the end is refused.
fn bags_until(end: u64, feed: &[u8]) -> Result<Vec<FeedBag>, u64> {
    let bags = read(feed)?;
    let before_the_last = bags.last().is_some_and(|last| end < last.moment);
    if before_the_last || end > HIGHEST_TIME {
        return Err(BAD_TIME);
    }
    Ok(bags)
}

/// Makes one advance call of a machine: run, moment, bag, and what is left of the trace.
pub type MakeCall<'c> = dyn FnMut(&mut [u8], u64, &[u8], &mut [u8]) -> Advanced + 'c;

/// Runs a feed on the machine that makes the calls.
pub fn run_by(
    make_call: &mut MakeCall,
    file: &[u8],
    run: &mut [u8],
    end: u64,
    feed: &[u8],
    trace: &mut [u8],
) -> Fed {
    match checks::model_and_run(file, run).and_then(|_| bags_until(end, feed)) {
        Ok(bags) => in_turn(make_call, run, end, bags, trace),
        Err(number) => Fed::refused(number),
    }
}

/// The calls in turn, the last to the end where that lies past the last bag or there is none. A first call
/// that comes too early is refused like any advance, and so with zeros.
fn in_turn(
    make_call: &mut MakeCall,
    run: &mut [u8],
    end: u64,
    bags: Vec<FeedBag>,
    trace: &mut [u8],
) -> Fed {
    let is_past = bags.last().is_none_or(|last| last.moment < end);
    let to_the_end = is_past.then(|| FeedBag { moment: end, messages: Vec::new() });
    let mut fed = Fed::refused(SUCCESS);
    for (place, call) in bags.iter().chain(&to_the_end).enumerate() {
        let left = &mut trace[fed.trace_bytes as usize..];
        let answer = make_call(run, call.moment, &call.given(), left);
        fed.number = answer.number;
        fed.instants += answer.instants;
        fed.steps += answer.steps;
        fed.trace_bytes += answer.trace_bytes;
        if answer.number != SUCCESS {
            return fed;
        }
        fed.bags += u64::from(place < bags.len());
    }
    fed
}
