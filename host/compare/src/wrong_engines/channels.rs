//! Wrong ways to advance channels, made of the reference: who has which steps, what stops a channel, what it leaves
//! behind, where its bag and its parts lie, and what a refused call answers.

mod told;

use reference::decode::decode;
use reference::limits::CHANNELS;
use reference::little_endian::put_u64;
use reference::saved_run::SavedRun;
use reference::{Advanced, Asked, Channels, Place};

#[derive(Clone, Copy, Debug, PartialEq, Eq)]
pub enum Wrong {
    Nothing,
    LeftOverIsLost,
    LeftOverOfARefusedChannelIsLost,
    LeftOverOfTheChannelBeforeOnly,
    RemainderForTheFirst,
    ShareRoundedUp,
    WholeAllowanceForEach,
    UndoneInstantIsSpent,
    OutOfStepsBefore13,
    OutOfStepsBefore15,
    JustFittingIsRefused,
    OneStepOverIsAccepted,
    StopsBeforeTheBagOnly,
    BagTakenWith22,
    OpenMomentAfter22IsTheNext,
    OpenMomentAfter22IsPastT,
    OpenMomentAfter22IsAsBefore,
    QuietWithoutStepsIs22,
    PlaceByItsLengthAlone,
    PlaceByASumThatWraps,
    EmptyBagAnywhere,
    PlaceBeforeTheTime,
    PlaceRefusesTheWholeCall,
    RunPartsRoundedUp,
    TracePartsRoundedUp,
    LastChannelHasTheRest,
    ReverseOrder,
    TracePartsSwapped,
    StopsAtTheFirstRefused,
    BagOfTheFirstForAll,
    ZerosNotGivenWith21,
    ModelBefore21,
    CountOfOneByte,
    OnlyTheAllowanceIsTested,
    LeastAllowanceForOne,
    AbsentChannelsAnswer11,
    NumberOfTheFirstRefused,
}

/// The steps that a channel has for its instants, and what is wrong about them.
struct Limits {
    has: u64,
    wrong: Wrong,
}

/// What became of a channel, and the steps of the instant that it left undone.
type Advancing = (Advanced, u64);

fn refused(number: u64) -> Advancing {
    (Advanced::refused(number), 0)
}

impl Wrong {
    fn refuses(self, asked: &Asked) -> bool {
        let count = match self {
            Wrong::CountOfOneByte => asked.count % 256,
            _ => asked.count,
        };
        let least = match self {
            Wrong::LeastAllowanceForOne => 1_024,
            _ => count.wrapping_mul(1_024),
        };
        let too_many = count > 8 && self != Wrong::OnlyTheAllowanceIsTested;
        count == 0 || too_many || asked.allowance < least
    }

    pub fn advance_channels(
        self,
        file: &[u8],
        runs: &mut [u8],
        asked: &Asked,
        traces: &mut [u8],
    ) -> Channels {
        let number = reference::check_model(file);
        if self == Wrong::ModelBefore21 && number != 0 {
            return Channels::refused(number);
        }
        if self.refuses(asked) {
            let mut answer = Channels::refused(21);
            if self == Wrong::ZerosNotGivenWith21 {
                answer.channels[0].number = 21;
            }
            return answer;
        }
        if number != 0 {
            return Channels::refused(number);
        }
        let count = (asked.count % 256).min(CHANNELS as u64) as usize;
        let mut answer = Channels::refused(0);
        if self == Wrong::PlaceRefusesTheWholeCall
            && asked.places[..count].iter().any(|place| place.bag_among(asked.bags).is_none())
        {
            return Channels::refused(12);
        }
        let mut order: Vec<usize> = (0..count).collect();
        if self == Wrong::ReverseOrder {
            order.reverse();
        }
        let mut left = 0;
        for channel in order {
            let has = self.steps_of(asked, count, channel, left);
            let (entry, undone) =
                self.advance_one(file, runs, asked, traces, (count, channel, has));
            answer.channels[channel] = entry;
            left = self.left_over(asked.allowance / count as u64, has, &entry, undone);
            if self == Wrong::StopsAtTheFirstRefused && matches!(entry.number, 10..=12) {
                break;
            }
        }
        match self {
            Wrong::AbsentChannelsAnswer11 => answer.channels[count..].fill(Advanced::refused(11)),
            Wrong::NumberOfTheFirstRefused => {
                let refused = answer.channels.iter().find(|entry| matches!(entry.number, 10..=12));
                answer.number = refused.map_or(0, |entry| entry.number);
            }
            _ => {}
        }
        answer
    }

    fn steps_of(self, asked: &Asked, count: usize, channel: usize, left: u64) -> u64 {
        let share = asked.allowance / count as u64;
        let remainder = asked.allowance % count as u64;
        match self {
            Wrong::WholeAllowanceForEach => asked.allowance,
            Wrong::RemainderForTheFirst if channel == 0 => share + remainder + left,
            Wrong::ShareRoundedUp => asked.allowance.div_ceil(count as u64) + left,
            _ => share + left,
        }
    }

    fn left_over(self, share: u64, has: u64, entry: &Advanced, undone: u64) -> u64 {
        let left = has.saturating_sub(entry.steps);
        match self {
            Wrong::LeftOverIsLost => 0,
            Wrong::LeftOverOfARefusedChannelIsLost if matches!(entry.number, 10..=12) => {
                has - share
            }
            Wrong::LeftOverOfTheChannelBeforeOnly => share.saturating_sub(entry.steps),
            Wrong::UndoneInstantIsSpent => left.saturating_sub(undone),
            _ => left,
        }
    }

    /// Where a channel's part of a buffer lies.
    fn part(self, is_trace: bool, length: usize, count: usize, channel: usize) -> (usize, usize) {
        let rounded_up = match self {
            Wrong::RunPartsRoundedUp => !is_trace,
            Wrong::TracePartsRoundedUp => is_trace,
            _ => false,
        };
        let part = if rounded_up { length.div_ceil(count) } else { length / count };
        let at = match self {
            Wrong::TracePartsSwapped if is_trace => count - 1 - channel,
            _ => channel,
        };
        let end = match self {
            Wrong::LastChannelHasTheRest if channel + 1 == count => length,
            _ => part * (at + 1),
        };
        ((part * at).min(length), end.min(length))
    }

    /// A channel's bag, or none where its place is refused.
    fn bag(self, asked: &Asked, place: Place) -> Option<Vec<u8>> {
        let length = asked.bags.len() as u64;
        let within = match self {
            Wrong::PlaceByItsLengthAlone => place.length <= length,
            Wrong::PlaceByASumThatWraps => place.start.wrapping_add(place.length) <= length,
            Wrong::EmptyBagAnywhere if place.length == 0 => true,
            _ => return place.bag_among(asked.bags).map(<[u8]>::to_vec),
        };
        // What lies there is some bag, whatever is read.
        within.then(|| place.bag_among(asked.bags).unwrap_or(&[]).to_vec())
    }

    fn advance_one(
        self,
        file: &[u8],
        runs: &mut [u8],
        asked: &Asked,
        traces: &mut [u8],
        (count, channel, has): (usize, usize, u64),
    ) -> Advancing {
        let (run_from, run_to) = self.part(false, runs.len(), count, channel);
        let (trace_from, trace_to) = self.part(true, traces.len(), count, channel);
        let (run, trace) = (&mut runs[run_from..run_to], &mut traces[trace_from..trace_to]);
        let place = match self {
            Wrong::BagOfTheFirstForAll => asked.places[0],
            _ => asked.places[channel],
        };
        let model = decode(file).expect("an accepted model");
        let Ok(saved) = SavedRun::read_fitting(&model, run) else {
            return refused(10);
        };
        let bag = self.bag(asked, place);
        if self == Wrong::PlaceBeforeTheTime && bag.is_none() {
            return refused(12);
        }
        let refusal = {
            let (run, trace) = (&mut run.to_vec(), &mut []);
            // A bag that is cut is refused after the time, and before anything is done.
            reference::advance(file, run, asked.t, &[0], trace, &mut []).number
        };
        if refusal != 12 {
            return refused(refusal);
        }
        let Some(bag) = bag.filter(|bag| legal(bag)) else {
            return refused(12);
        };
        Limits { has, wrong: self }.instants(file, run, saved.open, asked.t, &bag, trace)
    }
}

fn legal(bag: &[u8]) -> bool {
    bag.len().is_multiple_of(3) && bag.len() <= 48 && bag.chunks(3).all(|message| message[0] <= 3)
}

impl Limits {
    /// The instants of a channel, each tried by an advance on copies.
    fn instants(
        &self,
        file: &[u8],
        run: &mut [u8],
        first_open: u64,
        t: u64,
        bag: &[u8],
        trace: &mut [u8],
    ) -> Advancing {
        let mut total = Advanced::refused(0);
        loop {
            let reading = reference::read(file, run, 0);
            let due = if reading.number == 0 { reading.next_due } else { u64::MAX };
            let now = due.min(t);
            let given = if now == t { bag } else { &[] };
            let used = total.trace_bytes as usize;
            let (mut run_copy, mut trace_copy) = (run.to_vec(), trace.to_vec());
            let room = &mut trace_copy[used..];
            let tried = reference::advance(file, &mut run_copy, now, given, room, &mut []);
            let left = self.has - total.steps.min(self.has);
            let steps = steps_of(file, run, (now, given), &tried);
            let number = self.number(&tried, steps, left, now == t);
            if number == 22 && self.wrong == Wrong::BagTakenWith22 && now == t {
                run.copy_from_slice(&run_copy);
            } else if number == 22 {
                self.leave(run, first_open, due, t);
            }
            if number != 0 {
                return (Advanced { number, ..total }, steps);
            }
            run.copy_from_slice(&run_copy);
            trace.copy_from_slice(&trace_copy);
            total.instants += tried.instants;
            total.steps += tried.steps;
            total.trace_bytes += tried.trace_bytes;
            if now == t {
                return (total, 0);
            }
        }
    }

    /// The number that ends the channel at an instant of so many steps, or 0.
    fn number(&self, tried: &Advanced, steps: u64, left: u64, is_last: bool) -> u64 {
        let is_out = match self.wrong {
            Wrong::JustFittingIsRefused => steps > 0 && steps >= left,
            Wrong::OneStepOverIsAccepted => steps > left + 1,
            Wrong::StopsBeforeTheBagOnly => !is_last && steps > left,
            Wrong::QuietWithoutStepsIs22 => steps > left || left == 0,
            _ => steps > left,
        };
        match (tried.number, self.wrong) {
            (13, Wrong::OutOfStepsBefore13) | (15, Wrong::OutOfStepsBefore15) if is_out => 22,
            (0, _) if is_out => 22,
            (number, _) => number,
        }
    }

    /// What 22 leaves in the run.
    fn leave(&self, run: &mut [u8], first_open: u64, due: u64, t: u64) {
        match self.wrong {
            Wrong::OpenMomentAfter22IsTheNext => put_u64(run, 0, due.min(t)),
            Wrong::OpenMomentAfter22IsPastT => put_u64(run, 0, t + 1),
            Wrong::OpenMomentAfter22IsAsBefore => put_u64(run, 0, first_open),
            _ => {}
        }
    }
}

/// The steps of an instant that was tried, be it left undone.
fn steps_of(file: &[u8], run: &[u8], (now, given): (u64, &[u8]), tried: &Advanced) -> u64 {
    match tried.number {
        13 => 1_024,
        15 => {
            let mut long = vec![0; 300_000];
            reference::advance(file, &mut run.to_vec(), now, given, &mut long, &mut []).steps
        }
        _ => tried.steps,
    }
}
