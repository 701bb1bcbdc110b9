//! Wrong ways to run a feed, made of the reference's advance: what passes for a feed, the order of the checks,
//! which calls are made and on what, and what is counted.

mod told;

use reference::decode::decode;
use reference::feed::{FeedBag, BAG_HEAD_BYTES, HEAD_BYTES};
use reference::limits::{FEED_BAGS, GIVEN_MESSAGES, HIGHEST_PORT, HIGHEST_TIME};
use reference::little_endian::{u16_at, u64_at};
use reference::records::Message;
use reference::saved_run::SavedRun;
use reference::{Advanced, Fed};

#[derive(Clone, Copy, Debug, PartialEq, Eq)]
pub enum Wrong {
    Nothing,
    LeftOverAllowed,
    CutBagDropped,
    MoreBagsAllowed,
    BagCountOfOneByte,
    MoreMessagesAllowed,
    MomentsMayRepeat,
    MomentsMayFall,
    MomentsComparedFromTheLowByte,
    LateMomentsAllowed,
    Port4Allowed,
    NoBagRefused,
    EmptyBagRefused,
    FeedBeforeTheRun,
    TimesBeforeTheFeed,
    EndBeforeTheLastBagAllowed,
    LateEndFoundLate,
    EarlyBagsPassedOver,
    AlwaysGoesToTheEnd,
    NeverGoesToTheEnd,
    NoBagDoesNothing,
    GoesOnAfterARefusal,
    EveryCallOnTheFirstRun,
    WholeTraceEachTime,
    EndCallIsABag,
    StoppedBagIsCounted,
    EmptyBagIsNotCounted,
    StoppedCallIsNotCounted,
    LastCallAloneIsCounted,
    UndoesTheStoppedCall,
    UndoesAllWhereStopped,
    BagsOfOneByte,
}

/// What is broken about a feed.
#[derive(Clone, Copy, PartialEq, Eq)]
enum Broken {
    Cut,
    LeftOver,
    Bags,
    Messages,
    Repeated,
    Falls,
    Late,
    Port,
}

/// The run and the trace as they are lent, and the calls made on them so far.
struct Lent<'l> {
    file: &'l [u8],
    run: &'l mut [u8],
    trace: &'l mut [u8],
    first_run: Vec<u8>,
    fed: Fed,
}

impl Wrong {
    /// Whether a feed is taken though this is broken about it.
    fn passes(self, broken: Broken) -> bool {
        match broken {
            Broken::Cut => self == Wrong::CutBagDropped,
            Broken::LeftOver => self == Wrong::LeftOverAllowed,
            Broken::Bags => self == Wrong::MoreBagsAllowed,
            Broken::Messages => self == Wrong::MoreMessagesAllowed,
            Broken::Repeated => matches!(self, Wrong::MomentsMayRepeat | Wrong::MomentsMayFall),
            Broken::Falls => self == Wrong::MomentsMayFall,
            Broken::Late => self == Wrong::LateMomentsAllowed,
            Broken::Port => self == Wrong::Port4Allowed,
        }
    }

    /// The bags that bytes tell, as far as they go, and what is broken about them.
    fn bags_told(self, feed: &[u8]) -> (Vec<FeedBag>, Vec<Broken>) {
        let (mut bags, mut broken) = (Vec::new(), Vec::new());
        let Some((head, mut rest)) = feed.split_at_checked(HEAD_BYTES) else {
            return (bags, vec![Broken::Cut]);
        };
        let count = match self {
            Wrong::BagCountOfOneByte => usize::from(head[0]),
            _ => usize::from(u16_at(head, 0)),
        };
        while bags.len() < count && broken.is_empty() {
            match bag_at_the_front(rest) {
                Some((bag, after)) => {
                    bags.push(bag);
                    rest = after;
                }
                None => broken.push(Broken::Cut),
            }
        }
        if broken.is_empty() && !rest.is_empty() {
            broken.push(Broken::LeftOver);
        }
        broken.extend(self.broken_lines(&bags));
        (bags, broken)
    }

    fn broken_lines(self, bags: &[FeedBag]) -> Vec<Broken> {
        let falls = |two: &[FeedBag]| match self {
            Wrong::MomentsComparedFromTheLowByte => {
                two[0].moment.to_le_bytes() > two[1].moment.to_le_bytes()
            }
            _ => two[0].moment > two[1].moment,
        };
        let mut messages = bags.iter().flat_map(|bag| &bag.messages);
        let found = [
            (Broken::Bags, bags.len() > FEED_BAGS),
            (Broken::Messages, bags.iter().any(|bag| bag.messages.len() > GIVEN_MESSAGES)),
            (Broken::Repeated, bags.windows(2).any(|two| two[0].moment == two[1].moment)),
            (Broken::Falls, bags.windows(2).any(falls)),
            (Broken::Late, bags.iter().any(|bag| bag.moment > HIGHEST_TIME)),
            (Broken::Port, messages.any(|message| message.port > HIGHEST_PORT)),
        ];
        found.into_iter().filter(|(_, is_so)| *is_so).map(|(broken, _)| broken).collect()
    }

    fn takes_feed(self, bags: &[FeedBag], broken: &[Broken]) -> bool {
        let is_refused = match self {
            Wrong::NoBagRefused => bags.is_empty(),
            Wrong::EmptyBagRefused => bags.iter().any(|bag| bag.messages.is_empty()),
            _ => false,
        };
        !is_refused && broken.iter().all(|&broken| self.passes(broken))
    }

    fn takes_end(self, bags: &[FeedBag], end: u64) -> bool {
        let before_the_last = bags.last().is_some_and(|last| end < last.moment);
        (!before_the_last || self == Wrong::EndBeforeTheLastBagAllowed)
            && (end <= HIGHEST_TIME || self == Wrong::LateEndFoundLate)
    }

    /// The number by which it is refused before any call, or 0.
    fn refusal(self, file: &[u8], run: &[u8], feed_taken: bool, end_taken: bool) -> u64 {
        let model = match decode(file) {
            Ok(model) => model,
            Err(number) => return number,
        };
        let fits = SavedRun::read_fitting(&model, run).is_ok();
        let mut checks = [(10, fits), (19, feed_taken), (11, end_taken)];
        match self {
            Wrong::FeedBeforeTheRun => checks.swap(0, 1),
            Wrong::TimesBeforeTheFeed => checks.swap(1, 2),
            _ => {}
        }
        checks.into_iter().find(|(_, passed)| !passed).map_or(0, |(number, _)| number)
    }

    fn goes_to_the_end(self, bags: &[FeedBag], end: u64) -> bool {
        let last = bags.last().map(|bag| bag.moment);
        match self {
            Wrong::AlwaysGoesToTheEnd => true,
            Wrong::NeverGoesToTheEnd => false,
            Wrong::NoBagDoesNothing => last.is_some_and(|last| last < end),
            _ => last.is_none_or(|last| last < end),
        }
    }

    pub fn advance_feed(
        self,
        file: &[u8],
        run: &mut [u8],
        end: u64,
        feed: &[u8],
        trace: &mut [u8],
    ) -> Fed {
        let (mut bags, broken) = self.bags_told(feed);
        let feed_taken = self.takes_feed(&bags, &broken);
        let number = self.refusal(file, run, feed_taken, self.takes_end(&bags, end));
        if number != 0 {
            return Fed::refused(number);
        }
        let to_the_end = self.goes_to_the_end(&bags, end);
        if self == Wrong::EarlyBagsPassedOver {
            let open = u64_at(run, 0);
            bags.retain(|bag| bag.moment >= open);
        }
        let (lent_run, lent_trace) = (run.to_vec(), trace.to_vec());
        let mut lent = Lent { file, run, trace, first_run: lent_run, fed: Fed::refused(0) };
        let in_turn = bags.iter().all(|bag| self.goes_on(&mut lent, bag, true));
        if to_the_end && in_turn {
            self.goes_on(&mut lent, &FeedBag { moment: end, messages: Vec::new() }, false);
        }
        if self == Wrong::UndoesAllWhereStopped && lent.fed.number != 0 {
            lent.run.copy_from_slice(&lent.first_run);
            lent.trace.copy_from_slice(&lent_trace);
            lent.fed = Fed::refused(lent.fed.number);
        }
        if self == Wrong::BagsOfOneByte {
            lent.fed.bags %= 256;
        }
        lent.fed
    }

    /// Makes one call, and says whether another may follow.
    fn goes_on(self, lent: &mut Lent, bag: &FeedBag, of_a_bag: bool) -> bool {
        if self == Wrong::EveryCallOnTheFirstRun {
            lent.run.copy_from_slice(&lent.first_run);
        }
        let used = match self {
            Wrong::WholeTraceEachTime => 0,
            _ => lent.fed.trace_bytes as usize,
        };
        let (run_before, trace_before) = (lent.run.to_vec(), lent.trace.to_vec());
        let left = &mut lent.trace[used..];
        let mut answer =
            reference::advance(lent.file, lent.run, bag.moment, &bag.given(), left, &mut []);
        let is_stopped = answer.number != 0;
        if self == Wrong::UndoesTheStoppedCall && is_stopped {
            lent.run.copy_from_slice(&run_before);
            lent.trace.copy_from_slice(&trace_before);
            answer = Advanced::refused(answer.number);
        }
        self.add(&mut lent.fed, &answer, bag, of_a_bag);
        !is_stopped || self == Wrong::GoesOnAfterARefusal
    }

    fn add(self, fed: &mut Fed, answer: &Advanced, bag: &FeedBag, of_a_bag: bool) {
        let is_stopped = answer.number != 0;
        fed.number = answer.number;
        if self == Wrong::LastCallAloneIsCounted {
            (fed.instants, fed.steps) = (0, 0);
        }
        if self != Wrong::StoppedCallIsNotCounted || !is_stopped {
            fed.instants += answer.instants;
            fed.steps += answer.steps;
            fed.trace_bytes += answer.trace_bytes;
        }
        fed.bags += u64::from(match self {
            Wrong::EndCallIsABag => !is_stopped,
            Wrong::StoppedBagIsCounted => of_a_bag,
            Wrong::EmptyBagIsNotCounted => of_a_bag && !is_stopped && !bag.messages.is_empty(),
            _ => of_a_bag && !is_stopped,
        });
    }
}

/// The bag at the front of some bytes, and the bytes after it; none where it is cut.
fn bag_at_the_front(bytes: &[u8]) -> Option<(FeedBag, &[u8])> {
    let (head, rest) = bytes.split_at_checked(BAG_HEAD_BYTES)?;
    let (messages, rest) = rest.split_at_checked(Message::BYTES * usize::from(head[8]))?;
    let messages = messages.chunks_exact(Message::BYTES).map(Message::read).collect();
    Some((FeedBag { moment: u64_at(head, 0), messages }, rest))
}
