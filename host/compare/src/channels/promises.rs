//! A call on channels against what it promises: each channel is left as its own advance would leave it, the
//! others matter only by the steps that they leave over, and called again it ends as one advance does.

use super::part;
use crate::call::{Answer, Call, OnChannels};
use crate::comparison::{CallList, Compared, Comparison};
use crate::random::Random;
use crate::runs::open_moment;
use reference::records::Message;
use reference::saved_run;
use reference::{Advanced, Channels, Place};

/// A call that was made, and what became of it.
pub struct Fact {
    file: Vec<u8>,
    call: OnChannels,
    runs_before: Vec<u8>,
    runs_after: Vec<u8>,
    traces_after: Vec<u8>,
    pub answer: Channels,
}

/// So many calls end any run that is called again: each does an instant at least.
const CALLS_AGAIN: usize = 2_000;

/// What a channel has come to, over all calls so far.
struct Sum {
    total: Advanced,
    records: Vec<u8>,
}

impl Fact {
    /// Makes the call in a list.
    pub fn of(list: &mut CallList, call: OnChannels) -> Compared<Fact> {
        let runs_before = list.run().to_vec();
        let outcome = list.call(&Call::Channels(call.clone()))?;
        let Answer::Channels(answer) = outcome.answer else {
            return Err("an answer of another call".into());
        };
        let (file, runs_after) = (list.file.clone(), list.run().to_vec());
        Ok(Fact { file, call, runs_before, runs_after, traces_after: outcome.trace, answer })
    }

    /// The number of channels that were answered; 0 where the whole call was refused.
    fn count(&self) -> usize {
        let asked = self.call.asked();
        asked.channels().filter(|_| self.answer.number == 0).unwrap_or(0)
    }

    fn entries(&self) -> &[Advanced] {
        &self.answer.channels[..self.count()]
    }

    /// Tests all promises. The calls for that come on top of those that a run asks for.
    pub fn holds(&self, comparison: &mut Comparison, random: &mut Random) -> Compared<()> {
        let calls = comparison.calls;
        let outcome = self
            .holds_alone(comparison)
            .and_then(|()| self.holds_beside_others(comparison, random))
            .and_then(|()| self.holds_again(comparison));
        comparison.calls_about_channels += comparison.calls - calls;
        comparison.calls = calls;
        outcome.map_err(|fault| format!("{fault}\nof {}", Call::Channels(self.call.clone())))
    }

    /// Each channel against its own advance on its own parts, made on every engine.
    fn holds_alone(&self, comparison: &mut Comparison) -> Compared<()> {
        let count = self.count();
        for (channel, advanced) in self.entries().iter().enumerate() {
            let run_after = part(&self.runs_after, count, channel);
            let bag = self.call.places[channel].bag_among(&self.call.bags);
            let (t, bag, expected) = match (advanced.number, bag) {
                (22, _) if advanced.instants == 0 => return Err("22 and no instant done".into()),
                (22, _) => {
                    (open_moment(run_after) - 1, &[][..], Advanced { number: 0, ..*advanced })
                }
                (_, Some(bag)) => (self.call.t, bag, *advanced),
                // No advance has a bag like that.
                (12, None) => continue,
                (_, None) => (self.call.t, &[][..], *advanced),
            };
            let trace = part(&self.call.traces, count, channel).to_vec();
            let mut list = comparison.list(&self.file, part(&self.runs_before, count, channel));
            let advance = Call::Advance { t, bag: bag.to_vec(), trace, rules: Vec::new() };
            let outcome = list.call(&advance)?;
            if outcome.answer != Answer::Advanced(expected) {
                return Err(format!(
                    "channel {channel} gives {advanced:?}, its own advance {:?}",
                    outcome.answer
                ));
            }
            let trace_after = part(&self.traces_after, count, channel);
            if list.run() != run_after || outcome.trace != trace_after {
                return Err(format!("channel {channel} is left otherwise than by its own advance"));
            }
        }
        Ok(())
    }

    /// The same call with another neighbour that spends as much: nothing else becomes of the others.
    fn holds_beside_others(
        &self,
        comparison: &mut Comparison,
        random: &mut Random,
    ) -> Compared<()> {
        let count = self.count();
        if count < 2 {
            return Ok(());
        }
        let changed = random.index(count);
        let (call, runs) = self.with_another_neighbour(random, changed);
        let mut list = comparison.list(&self.file, &runs);
        let other = Fact::of(&mut list, call)?;
        if other.entries()[changed].steps != self.entries()[changed].steps {
            return Err(format!(
                "channel {changed} spends otherwise by bytes that are not its own"
            ));
        }
        for channel in (0..count).filter(|&channel| channel != changed) {
            let left = |fact: &Fact| {
                let buffers = [&fact.runs_after, &fact.traces_after];
                let parts = buffers.map(|buffer| part(buffer, count, channel).to_vec());
                (fact.entries()[channel], parts)
            };
            if left(self) != left(&other) {
                return Err(format!(
                    "channel {channel} feels more of channel {changed} than its steps"
                ));
            }
        }
        Ok(())
    }

    /// Other bytes in the parts of a channel, and its bag in another order and place. One that spends nothing has
    /// a run that does not fit.
    fn with_another_neighbour(&self, random: &mut Random, channel: usize) -> (OnChannels, Vec<u8>) {
        let (count, mut call, mut runs) =
            (self.count(), self.call.clone(), self.runs_before.clone());
        let entry = self.entries()[channel];
        let length = runs.len() / count;
        let own_run = &mut runs[length * channel..length * (channel + 1)];
        if entry.steps == 0 && random.percent(70) {
            own_run.fill(0xFF);
        } else if length > 10 {
            let used = saved_run::length(usize::from(own_run[8])).min(length);
            own_run[used..].iter_mut().for_each(|byte| *byte ^= 0x5A);
        }
        let length = call.traces.len() / count;
        let own_trace = &mut call.traces[length * channel..length * (channel + 1)];
        own_trace.iter_mut().for_each(|byte| *byte ^= 0x5A);
        // More bags would change what a place past their end is.
        let all_lie_within =
            call.places[..count].iter().all(|place| place.bag_among(&call.bags).is_some());
        let bag = call.places[channel].bag_among(&call.bags).map(<[u8]>::to_vec);
        if let (true, Some(bag)) = (all_lie_within && !matches!(entry.number, 12), bag) {
            call.places[channel] =
                Place { start: call.bags.len() as u64, length: bag.len() as u64 };
            let rows = bag.chunks(Message::BYTES).rev();
            rows.for_each(|row| call.bags.extend(row));
        }
        (call, runs)
    }

    /// Called again with the traces anew until no channel is out of steps: each then has the run, the counts and
    /// the records of one advance, and those that are done answer 11.
    fn holds_again(&self, comparison: &mut Comparison) -> Compared<()> {
        if !self.entries().iter().any(|entry| entry.number == 22) {
            return Ok(());
        }
        let count = self.count();
        let mut list = comparison.list(&self.file, &self.runs_after);
        let mut sums: Vec<Sum> = (0..count).map(|channel| self.sum(channel)).collect();
        let mut last: Vec<u64> = self.entries().iter().map(|entry| entry.number).collect();
        for _ in 0..CALLS_AGAIN {
            if !last.contains(&22) {
                break;
            }
            let again = Fact::of(&mut list, self.call.clone())?;
            for (channel, entry) in again.entries().iter().enumerate() {
                let is_as_before = match last[channel] {
                    0 => *entry == Advanced::refused(11),
                    22 => entry.instants > 0 || matches!(entry.number, 13 | 15),
                    15 => true,
                    number => *entry == Advanced::refused(number),
                };
                if !is_as_before {
                    return Err(format!("channel {channel}, {entry:?} after {}", last[channel]));
                }
                if matches!(last[channel], 15 | 22) {
                    sums[channel].add(again.sum(channel));
                    last[channel] = entry.number;
                }
            }
        }
        let ended = list.run().to_vec();
        for (channel, sum) in sums.iter().enumerate() {
            if matches!(sum.total.number, 0 | 13) {
                self.is_one_advance(comparison, channel, sum, part(&ended, count, channel))?;
            }
        }
        Ok(())
    }

    /// What this one call has brought to a channel.
    fn sum(&self, channel: usize) -> Sum {
        let total = self.entries()[channel];
        let trace = part(&self.traces_after, self.count(), channel);
        Sum { total, records: trace[..total.trace_bytes as usize].to_vec() }
    }

    fn is_one_advance(
        &self,
        comparison: &mut Comparison,
        channel: usize,
        sum: &Sum,
        run_after: &[u8],
    ) -> Compared<()> {
        let bag = self.call.places[channel].bag_among(&self.call.bags).unwrap_or(&[]).to_vec();
        let mut list = comparison.list(&self.file, part(&self.runs_before, self.count(), channel));
        let trace = vec![0; sum.records.len()];
        let outcome =
            list.call(&Call::Advance { t: self.call.t, bag, trace, rules: Vec::new() })?;
        let is_one = outcome.answer == Answer::Advanced(sum.total)
            && outcome.trace == sum.records
            && list.run() == run_after;
        is_one.then_some(()).ok_or_else(|| {
            format!("channel {channel}, called again, {:?} against one advance", sum.total)
        })
    }
}

impl Sum {
    fn add(&mut self, more: Sum) {
        self.total.number = more.total.number;
        self.total.instants += more.total.instants;
        self.total.steps += more.total.steps;
        self.total.trace_bytes += more.total.trace_bytes;
        self.records.extend(more.records);
    }
}
