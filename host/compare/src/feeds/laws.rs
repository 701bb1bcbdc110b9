//! What the papers say of every feed that is run, tested on the outcome itself.

use crate::laws::{holds, test_instants, Buffers};
use reference::feed;
use reference::little_endian::u64_at;
use reference::{Advanced, Fed};

/// Tests the outcome of a feed that was run, be it not to its end.
pub fn test(
    end: u64,
    feed: &[u8],
    fed: &Fed,
    before: &Buffers,
    after: &Buffers,
) -> Result<(), String> {
    let bags = feed::read(feed).map_err(|_| "bytes that are no feed were run")?;
    let (open_before, open_after) = (u64_at(before.run, 0), u64_at(after.run, 0));
    holds(fed.bags <= bags.len() as u64, "no more bags are counted than there are")?;
    let (done, left) = bags.split_at(fed.bags as usize);
    let given = done.iter().filter(|bag| !bag.messages.is_empty()).count() as u64;
    holds(fed.instants >= given, "each bag with a message is an instant")?;
    holds(
        done.last().is_none_or(|last| last.moment < open_after),
        "the open moment lies past the bags that are done",
    )?;
    if fed.number == 0 {
        holds(left.is_empty(), "on success all bags are done")?;
        holds(open_after == end + 1, "on success the open moment is one past the end")?;
    } else {
        let stopped_at = left.first().map_or(end, |bag| bag.moment);
        holds(open_after <= stopped_at, "the call that was stopped may be made again")?;
        let moved = open_after > open_before;
        holds(moved || fed.instants + fed.bags == 0, "the open moment moves with what is done")?;
    }
    let Fed { number, instants, steps, trace_bytes, .. } = *fed;
    test_instants(&Advanced { number, instants, steps, trace_bytes }, before, after)
}

#[cfg(test)]
use reference::builder::bag;

#[test]
fn an_outcome_that_cannot_be_is_told() {
    // A bag at 5 with a message and one at 8 without, run to 9 from the open moment 3.
    let mut feed = vec![2, 0, 5, 0, 0, 0, 0, 0, 0, 0, 1];
    feed.extend(bag(&[(0, 7)]));
    feed.extend([8, 0, 0, 0, 0, 0, 0, 0, 0]);
    let law = |number, bags, instants, open_after: u8| {
        let run = |open| [open, 0, 0, 0, 0, 0, 0, 0, 0, 0];
        let fed = Fed { number, bags, instants, steps: instants, trace_bytes: 0 };
        let before = Buffers { run: &run(3), trace: &[], rules: &[] };
        let after = Buffers { run: &run(open_after), trace: &[], rules: &[] };
        test(9, &feed, &fed, &before, &after)
    };
    for (number, bags, instants, open_after) in
        [(0, 2, 1, 10), (0, 2, 4, 10), (15, 0, 0, 3), (15, 0, 1, 5), (13, 1, 1, 6), (15, 2, 2, 9)]
    {
        assert_eq!(law(number, bags, instants, open_after), Ok(()), "{number} at {open_after}");
    }
    for (number, bags, instants, open_after) in [
        (0, 3, 1, 10),
        (0, 1, 1, 10),
        (0, 2, 1, 9),
        (0, 2, 0, 10),
        (15, 1, 1, 5),
        (15, 1, 0, 6),
        (15, 0, 1, 6),
        (15, 0, 1, 3),
        (13, 2, 2, 10),
        (13, 2, 2, 8),
    ] {
        assert!(law(number, bags, instants, open_after).is_err(), "{number} at {open_after}");
    }
}
