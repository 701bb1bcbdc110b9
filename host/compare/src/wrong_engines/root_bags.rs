//! Wrong limits, sizes and orders of the bags at the root, and of the two numbers that leave an instant undone,
//! made of the root coordinator, which is right in all else.

use super::{comparison_with, Fault};
use crate::feeds;
use crate::random::Random;
use crate::special::root_bags::{self, NAMES};
use crate::special::Special;
use reference::checks;
use reference::feed;
use reference::limits::ROOT_BAG;
use reference::nest::{self, DeadWays};
use reference::observed::Observed;
use reference::records::Message;
use reference::root_coordinator::RootCoordinator;
use reference::trace::{read_records, Record};
use reference::{Advanced, Fed};

#[derive(Clone, Copy, Debug, PartialEq, Eq)]
pub enum Wrong {
    Nothing,
    /// By 14, which no call answers any more.
    Refuses4096,
    RefusesOver4096InAnInstant,
    RefusesOver4096WithTheGivenOnes,
    DropsTheLastOf4096,
    CountOf12Bits,
    SortsHalves,
    InstantOf16Bits,
    TraceOf16Bits,
    RoomForEachRecordAlone,
    RoomBeforeStillDue,
    SecondPassWithoutTheBag,
}

/// Records of so many bytes an engine may keep aside until their instant is judged; more of them take a second
/// pass.
const KEPT_ASIDE: usize = 4_096;

/// Each with the case and the row of it that tells it.
const ALL: [(Wrong, Special, &str); 11] = [
    (Wrong::Refuses4096, root_bags::largest, NAMES[0]),
    (Wrong::RefusesOver4096InAnInstant, root_bags::one_after_another, NAMES[3]),
    (Wrong::RefusesOver4096WithTheGivenOnes, root_bags::beside_given_bags, NAMES[7]),
    (Wrong::DropsTheLastOf4096, root_bags::largest, NAMES[0]),
    (Wrong::CountOf12Bits, root_bags::largest, NAMES[0]),
    (Wrong::SortsHalves, root_bags::of_many_atomics, NAMES[6]),
    (Wrong::InstantOf16Bits, root_bags::one_after_another, NAMES[3]),
    (Wrong::TraceOf16Bits, root_bags::one_after_another, NAMES[5]),
    (Wrong::RoomForEachRecordAlone, root_bags::one_after_another, NAMES[3]),
    (Wrong::RoomBeforeStillDue, root_bags::in_an_endless_instant, NAMES[11]),
    (Wrong::SecondPassWithoutTheBag, root_bags::beside_given_bags, NAMES[8]),
];

/// An instant that was tried.
struct Tried<'t> {
    records: &'t [Record],
    still_due: bool,
    given: usize,
}

impl Wrong {
    fn bytes(self, record: &Record) -> Vec<u8> {
        let mut messages = record.messages.clone();
        match self {
            Wrong::DropsTheLastOf4096 => messages.truncate(ROOT_BAG - 1),
            Wrong::SortsHalves if messages.len() > ROOT_BAG / 2 => {
                let half = |first: usize| record.messages.iter().skip(first).step_by(2).copied();
                messages = half(0).chain(half(1)).collect::<Vec<Message>>();
            }
            _ => {}
        }
        let mut bytes = Vec::new();
        Record { messages, ..*record }.write(&mut bytes);
        if self == Wrong::CountOf12Bits {
            bytes[11] &= 0x0F;
        }
        bytes
    }

    /// Whether it answers 14 for an instant.
    fn refuses(self, tried: &Tried) -> bool {
        let mut bags = tried.records.iter().map(|record| record.messages.len());
        match self {
            Wrong::Refuses4096 => bags.any(|bag| bag >= ROOT_BAG),
            Wrong::RefusesOver4096InAnInstant => bags.sum::<usize>() > ROOT_BAG,
            Wrong::RefusesOver4096WithTheGivenOnes => bags.any(|bag| bag + tried.given > ROOT_BAG),
            _ => false,
        }
    }

    /// The number by which it leaves an instant undone where there is so much room, or 0.
    fn judge(self, tried: &Tried, room: usize) -> u64 {
        let mut lengths = tried.records.iter().map(|record| self.bytes(record).len());
        let has_room = match self {
            Wrong::InstantOf16Bits => lengths.sum::<usize>() % 65_536 <= room,
            Wrong::RoomForEachRecordAlone => lengths.all(|length| length <= room),
            _ => lengths.sum::<usize>() <= room,
        };
        let room_first = self == Wrong::RoomBeforeStillDue && !has_room;
        match (tried.still_due, has_room) {
            (true, _) if !room_first => 13,
            _ if self.refuses(tried) => 14,
            (_, false) => 15,
            _ => 0,
        }
    }

    pub fn advance(
        self,
        file: &[u8],
        run: &mut [u8],
        t: u64,
        bag: &[u8],
        trace: &mut [u8],
        rules: &mut [u8],
    ) -> Advanced {
        let checked = checks::model_and_run(file, run).and_then(|(model, saved)| {
            let given = checks::time_and_bag(saved.open, t, bag)?;
            Ok((model, saved, given))
        });
        let (model, mut saved, given) = match checked {
            Ok(all) => all,
            Err(number) => return Advanced::refused(number),
        };
        let root = nest::root(&model, DeadWays::Dropped);
        let mut coordinator = RootCoordinator::load(&root, &saved.atomics);
        let mut answer = Advanced::refused(0);
        loop {
            let due = coordinator.due();
            let now = due.map_or(t, |due| due.min(t));
            let given = if now == t { &given[..] } else { &[] };
            if due == Some(now) || !given.is_empty() {
                let instant = coordinator.instant(now, given, &mut Observed::default());
                let records = &read_records(&instant.records).expect("whole records")[..];
                let tried = Tried { records, still_due: instant.still_due, given: given.len() };
                let used = trace.len().min(answer.trace_bytes as usize);
                answer.number = self.judge(&tried, trace.len() - used);
                if answer.number != 0 {
                    break;
                }
                let mut bytes: Vec<u8> =
                    records.iter().flat_map(|record| self.bytes(record)).collect();
                answer.trace_bytes += bytes.len() as u64;
                if self == Wrong::SecondPassWithoutTheBag && bytes.len() > KEPT_ASIDE {
                    bytes = coordinator.instant(now, &[], &mut Observed::default()).records;
                }
                let place = if self == Wrong::TraceOf16Bits { used % 65_536 } else { used };
                trace[place..].iter_mut().zip(&bytes).for_each(|(byte, new)| *byte = *new);
                instant.lit.write(rules);
                coordinator = instant.after;
                saved.open = now + 1;
                answer.instants += 1;
                answer.steps += instant.steps;
            }
            if now == t {
                saved.open = t + 1;
                break;
            }
        }
        coordinator.save(&mut saved.atomics);
        saved.write(run);
        answer
    }

    pub fn advance_feed(
        self,
        file: &[u8],
        run: &mut [u8],
        end: u64,
        feed: &[u8],
        trace: &mut [u8],
    ) -> Fed {
        let mut make_call = |run: &mut [u8], t: u64, bag: &[u8], trace: &mut [u8]| {
            self.advance(file, run, t, bag, trace, &mut [])
        };
        feed::run_by(&mut make_call, file, run, end, feed, trace)
    }
}

#[test]
fn rows_alone_find_what_is_wrong_about_root_bags() {
    for (wrong, case, row) in ALL {
        let mut comparison = comparison_with(Fault::AboutRootBags(wrong));
        let found = case(&mut comparison, &mut Random::new(1));
        let difference = found.expect_err("a row tells the fault");
        assert!(difference.starts_with(&format!("{row}, ")), "{wrong:?} is told by {difference}");
    }
}

#[test]
fn rows_of_feeds_find_what_is_wrong_about_root_bags_there() {
    let in_every_step = "feed with 4,096 messages at the root in every step";
    for (wrong, row) in [
        (Wrong::Refuses4096, in_every_step),
        (Wrong::RefusesOver4096InAnInstant, in_every_step),
        (Wrong::RefusesOver4096WithTheGivenOnes, in_every_step),
        (Wrong::DropsTheLastOf4096, in_every_step),
        (Wrong::CountOf12Bits, in_every_step),
        (Wrong::RoomForEachRecordAlone, in_every_step),
        (Wrong::SecondPassWithoutTheBag, "feed with 4,092 messages at the root by each bag"),
    ] {
        let mut comparison = comparison_with(Fault::AboutRootBagsOfFeeds(wrong));
        let found = feeds::largest_root_bags(&mut comparison, &mut Random::new(1));
        let difference = found.expect_err("a row tells the fault");
        assert!(difference.starts_with(&format!("{row}, ")), "{wrong:?} is told by {difference}");
    }
}
