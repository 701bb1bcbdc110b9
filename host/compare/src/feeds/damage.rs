//! Ways to spoil a feed, each by one of the reasons for 19.

use crate::random::Random;
use reference::feed::{encode, FeedBag, BAG_HEAD_BYTES, HEAD_BYTES};
use reference::limits::{FEED_BAGS, GIVEN_MESSAGES, HIGHEST_PORT, HIGHEST_TIME};
use reference::records::Message;

/// One way to spoil a feed of these bags. It answers its bytes, or none where that can't be done with them.
pub struct Damage {
    pub name: &'static str,
    pub apply: fn(&mut Random, &[FeedBag]) -> Option<Vec<u8>>,
}

pub const DAMAGES: [Damage; 18] = [
    Damage { name: "19: no byte", apply: |_, _| Some(Vec::new()) },
    Damage {
        name: "19: one byte of the bag count",
        apply: |_, bags| Some(encode(bags)[..HEAD_BYTES - 1].to_vec()),
    },
    Damage {
        name: "19: cut before a bag",
        apply: |random, bags| {
            let place = place(random, bags)?;
            Some(cut(bags, place, 0))
        },
    },
    Damage {
        name: "19: cut in a bag's head",
        apply: |random, bags| {
            let place = place(random, bags)?;
            Some(cut(bags, place, random.between(1, BAG_HEAD_BYTES as u64 - 1) as usize))
        },
    },
    Damage {
        name: "19: cut in a bag's messages",
        apply: |random, bags| {
            let place = place(random, bags)?;
            let all = Message::BYTES * bags[place].messages.len();
            (all > 0).then(|| cut(bags, place, BAG_HEAD_BYTES + random.index(all)))
        },
    },
    Damage {
        name: "19: count of one bag more",
        apply: |_, bags| Some(counted(bags, bags.len() + 1)),
    },
    Damage {
        name: "19: count of one bag less",
        apply: |_, bags| Some(counted(bags, bags.len().checked_sub(1)?)),
    },
    Damage {
        name: "19: count right in its low byte only",
        apply: |random, bags| {
            let count = bags.len() + 256 * random.between(1, 255) as usize;
            Some(counted(bags, count))
        },
    },
    Damage {
        name: "19: bytes left over",
        apply: |random, bags| {
            let more = random.pick(&[1, 1, 2, 9, 12]);
            Some([encode(bags), random.bytes(more)].concat())
        },
    },
    Damage { name: "19: 1,001 bags", apply: |random, bags| with_bags(random, bags, FEED_BAGS + 1) },
    Damage { name: "19: 1,024 bags", apply: |random, bags| with_bags(random, bags, 1_024) },
    Damage {
        name: "19: 17 messages",
        apply: |random, bags| with_messages(random, bags, GIVEN_MESSAGES + 1),
    },
    Damage {
        name: "19: more messages",
        apply: |random, bags| {
            let count = random.pick(&[18, 32, 127, 128, 255]);
            with_messages(random, bags, count)
        },
    },
    Damage {
        name: "19: moment repeated",
        apply: |random, bags| {
            let place = place(random, bags.get(1..)?)?;
            changed(bags, |bags| bags[place + 1].moment = bags[place].moment)
        },
    },
    Damage {
        name: "19: moment falls",
        apply: |random, bags| {
            let place = place(random, bags.get(1..)?)?;
            let earlier = random.below(bags[place].moment.max(1));
            (bags[place].moment > 0)
                .then(|| changed(bags, |bags| bags[place + 1].moment = earlier))?
        },
    },
    Damage {
        name: "19: moment falls, its low byte rises",
        apply: |random, bags| {
            let place = place(random, bags.get(1..)?)?;
            let earlier = (bags[place].moment & !255).checked_sub(1)?;
            ((earlier as u8) > bags[place].moment as u8)
                .then(|| changed(bags, |bags| bags[place + 1].moment = earlier))?
        },
    },
    Damage {
        name: "19: moment above the highest",
        apply: |random, bags| {
            let above = HIGHEST_TIME + 1;
            let late = random.pick(&[above, above, above + 1, 1 << 63, u64::MAX]);
            let last = bags.len().checked_sub(1)?;
            changed(bags, |bags| bags[last].moment = late)
        },
    },
    Damage {
        name: "19: port above 3",
        apply: |random, bags| {
            let place = place(random, bags)?;
            let message = random.index(bags[place].messages.len().max(1));
            let port = random.pick(&[HIGHEST_PORT + 1, HIGHEST_PORT + 1, 5, 128, 255]);
            (!bags[place].messages.is_empty())
                .then(|| changed(bags, |bags| bags[place].messages[message].port = port))?
        },
    },
];

fn place(random: &mut Random, bags: &[FeedBag]) -> Option<usize> {
    (!bags.is_empty()).then(|| random.index(bags.len()))
}

/// Cut so many bytes after the beginning of a bag.
fn cut(bags: &[FeedBag], place: usize, bytes_of_bag: usize) -> Vec<u8> {
    let begins = encode(&bags[..place]).len();
    let mut bytes = encode(bags);
    bytes.truncate(begins + bytes_of_bag);
    bytes
}

/// With another bag count.
fn counted(bags: &[FeedBag], count: usize) -> Vec<u8> {
    let mut bytes = encode(bags);
    bytes[..HEAD_BYTES].copy_from_slice(&(count as u16).to_le_bytes());
    bytes
}

fn changed(bags: &[FeedBag], change: impl FnOnce(&mut Vec<FeedBag>)) -> Option<Vec<u8>> {
    let mut bags = bags.to_vec();
    change(&mut bags);
    Some(encode(&bags))
}

/// With so many bags, the new ones at the moments that follow and without messages.
fn with_bags(random: &mut Random, bags: &[FeedBag], count: usize) -> Option<Vec<u8>> {
    let first = bags.last().map_or(random.below(9), |last| last.moment + 1);
    let more = (first..).take(count - bags.len());
    let more = more.map(|moment| FeedBag { moment, messages: Vec::new() });
    let all: Vec<FeedBag> = bags.iter().cloned().chain(more).collect();
    (all.last()?.moment <= HIGHEST_TIME).then(|| encode(&all))
}

/// With so many messages in a bag.
fn with_messages(random: &mut Random, bags: &[FeedBag], count: usize) -> Option<Vec<u8>> {
    let place = place(random, bags)?;
    let message = Message { port: random.below(4) as u8, value: random.next() as u16 };
    changed(bags, |bags| bags[place].messages = vec![message; count])
}
