//! Cases about channels: each number in each position, channels called again until they are done, and lists of
//! all kinds of calls over one run buffer.

use super::models::{
    bursts, standing, BURSTS, DOES_NOT_FIT, ONE_STEP_THEN_BURSTS, QUIET, TICKS, TICKS_SILENTLY,
};
use super::rows::{at_rest, expect, given, planned, Channel, LATE, PORT_4};
use crate::call::{Call, OnChannels};
use crate::comparison::{Compared, Comparison};
use crate::feeds::rows::bags_of;
use crate::random::Random;
use crate::runs::open_moment;
use reference::examples::JAM;
use reference::feed;
use reference::limits::CHANNELS;
use reference::Places;

pub const NAMES: [&str; 5] = [
    "each number in each channel",
    "22 in each channel",
    "channels called again until they are done",
    "channels after 15, with the traces anew",
    "starts, advances, feeds, readings and channels on one run buffer",
];

/// Eight channels by turns, so that each number stands in each position.
pub fn every_number_in_every_position(
    comparison: &mut Comparison,
    random: &mut Random,
) -> Compared<()> {
    let mut channels: [(Channel, [u64; 5]); CHANNELS] = [
        (at_rest(QUIET), [0, 0, 0, 0, 101]),
        (at_rest(DOES_NOT_FIT), [10, 0, 0, 0, 0]),
        (LATE, [11, 0, 0, 0, 200]),
        (PORT_4, [12, 0, 0, 0, 0]),
        (given(QUIET, &[(0, JAM)]), [13, 0, 0, 0, 0]),
        (at_rest(TICKS), [15, 2, 2, 30, 3]),
        (at_rest(TICKS_SILENTLY), [0, 100, 100, 0, 101]),
        (given(QUIET, &[(2, 9)]), [0, 1, 1, 0, 101]),
    ];
    for _ in 0..CHANNELS {
        channels.rotate_right(1);
        let beyond = random.index(CHANNELS);
        let standing = channels.map(|(channel, _)| channel);
        let asked = (100, 8_192, 40);
        let (mut list, call) = planned(comparison, random, &standing, asked, beyond);
        expect(&mut list, call, &channels.map(|(_, expected)| expected))
            .and_then(|fact| fact.holds(comparison, random))
            .map_err(|fault| format!("{}, {fault}", NAMES[0]))?;
    }
    comparison.counts.meet(NAMES[0]);
    Ok(())
}

/// As many channels as may be, and fewer, each with just one instant of 1,024 steps.
pub fn out_of_steps_in_every_position(
    comparison: &mut Comparison,
    random: &mut Random,
) -> Compared<()> {
    let some = random.between(2, 7) as usize;
    for count in [some, CHANNELS] {
        let channels = vec![at_rest(BURSTS); count];
        let asked = (20, 1_024 * count as u64 + random.below(count as u64), 30);
        let (mut list, call) = planned(comparison, random, &channels, asked, 0);
        expect(&mut list, call, &vec![[22, 1, 1_024, 15, 11]; count])
            .map_err(|fault| format!("{}, {fault}", NAMES[1]))?;
    }
    comparison.counts.meet(NAMES[1]);
    Ok(())
}

/// The same call again and again. A busy channel goes on in each, a bag is taken once, and what is done answers 11.
pub fn called_again(comparison: &mut Comparison, random: &mut Random) -> Compared<()> {
    let channels = [given(BURSTS, &[(3, 7)]), at_rest(QUIET), at_rest(ONE_STEP_THEN_BURSTS)];
    let (mut list, call) = planned(comparison, random, &channels, (22, 3_072, 30), 1);
    for expected in [
        [[22, 1, 1_024, 15, 11], [0, 0, 0, 0, 23], [22, 2, 1_025, 15, 11]],
        [[22, 1, 1_024, 15, 21], [11, 0, 0, 0, 23], [0, 1, 1_024, 15, 23]],
        [[0, 1, 1, 0, 23], [11, 0, 0, 0, 23], [11, 0, 0, 0, 23]],
        [[11, 0, 0, 0, 23], [11, 0, 0, 0, 23], [11, 0, 0, 0, 23]],
    ] {
        // The third has what the second left over, which is one step too few for its second burst.
        expect(&mut list, call.clone(), &expected)
            .map_err(|fault| format!("{}, {fault}", NAMES[2]))?;
    }
    comparison.counts.meet(NAMES[2]);
    let channels = [at_rest(TICKS), at_rest(QUIET)];
    let (mut list, call) = planned(comparison, random, &channels, (5, 2_048, 30), 0);
    for expected in [
        [[15, 2, 2, 30, 3], [0, 0, 0, 0, 6]],
        [[15, 2, 2, 30, 5], [11, 0, 0, 0, 6]],
        [[0, 1, 1, 15, 6], [11, 0, 0, 0, 6]],
    ] {
        expect(&mut list, call.clone(), &expected)
            .map_err(|fault| format!("{}, {fault}", NAMES[3]))?;
    }
    comparison.counts.meet(NAMES[3]);
    Ok(())
}

/// The run at the front is started, advanced, fed and read by itself, and advanced beside two others.
pub fn one_run_buffer_for_all_calls(
    comparison: &mut Comparison,
    random: &mut Random,
) -> Compared<()> {
    let standings = [standing(0, TICKS), standing(0, BURSTS), standing(0, QUIET)];
    let runs = standings.map(|run| run.encode()).concat();
    let mut list = comparison.list(&bursts().file(), &runs);
    let none = Vec::new;
    let advance = |t| Call::Advance { t, bag: none(), trace: vec![0; 200], rules: none() };
    let (places, traces) = (Places::default(), random.bytes(200));
    let channels = |t, allowance| {
        let (traces, bags) = (traces.clone(), none());
        Call::Channels(OnChannels { count: 3, t, allowance, bags, places, traces })
    };
    let fed = feed::encode(&bags_of(&[(9, &[]), (11, &[(3, 1)])]));
    let mut opens = Vec::new();
    for call in [
        channels(3, 3_072),
        Call::Read { position: 1 },
        advance(4),
        channels(5, 4_000),
        Call::Feed { end: 11, feed: fed, trace: random.bytes(120) },
        channels(12, 3_072),
        Call::Start,
        channels(21, 3_072),
        channels(30, 3_073),
        Call::Read { position: 2 },
        advance(31),
    ] {
        let outcome = list.call(&call).map_err(|fault| format!("{}, {fault}", NAMES[4]))?;
        if outcome.answer.number() != 0 {
            return Err(format!("{}, {call} answers {:?}", NAMES[4], outcome.answer));
        }
        let third = runs.len() / 3;
        opens.push([0, 1, 2].map(|channel| open_moment(&list.run()[channel * third..])));
    }
    let [first, .., last] = &opens[..] else { return Err("no call".into()) };
    if (*first, *last) != ([4; 3], [32, 31, 31]) {
        return Err(format!("{}, the open moments are {opens:?}", NAMES[4]));
    }
    comparison.counts.meet(NAMES[4]);
    Ok(())
}
