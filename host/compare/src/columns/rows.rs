//! Traces and columns whose bytes stand here, each with what must come of it.

use super::rearranging::{junk, Way};
use crate::comparison::{Compared, Comparison};
use crate::random::Random;

/// A trace and its columns.
struct Row {
    name: &'static str,
    trace: &'static [u8],
    columns: &'static [u8],
}

const ROWS: [Row; 9] = [
    Row { name: "by column: empty trace", trace: &[], columns: &[0, 0, 0, 0] },
    Row {
        name: "by column: one message",
        trace: &[20, 1, 0, 0, 0, 0, 0, 0, 0, 0, 1, 0, 1, 8, 2],
        columns: &[1, 0, 0, 0, 20, 1, 0, 0, 0, 0, 0, 0, 0, 0, 1, 0, 1, 8, 2],
    },
    Row {
        name: "by column: two steps of a moment",
        trace: &[
            5, 0, 0, 0, 0, 0, 0, 0, 0, 0, 2, 0, 0, 7, 0, 3, 1, 0, //
            5, 0, 0, 0, 0, 0, 0, 0, 9, 0, 1, 0, 3, 2, 0,
        ],
        columns: &[
            2, 0, 0, 0, 5, 0, 0, 0, 0, 0, 0, 0, 5, 0, 0, 0, 0, 0, 0, 0, //
            0, 0, 9, 0, 2, 0, 1, 0, 0, 3, 3, 7, 0, 1, 0, 2, 0,
        ],
    },
    Row {
        name: "by column: step and messages fall as the moment rises",
        trace: &[
            5, 0, 0, 0, 0, 0, 0, 0, 1, 0, 1, 0, 3, 9, 0, //
            6, 0, 0, 0, 0, 0, 0, 0, 0, 0, 1, 0, 0, 1, 0,
        ],
        columns: &[
            2, 0, 0, 0, 5, 0, 0, 0, 0, 0, 0, 0, 6, 0, 0, 0, 0, 0, 0, 0, //
            1, 0, 0, 0, 1, 0, 1, 0, 3, 0, 9, 0, 1, 0,
        ],
    },
    Row {
        name: "by column: equal messages",
        trace: &[5, 0, 0, 0, 0, 0, 0, 0, 0, 0, 2, 0, 2, 8, 0, 2, 8, 0],
        columns: &[1, 0, 0, 0, 5, 0, 0, 0, 0, 0, 0, 0, 0, 0, 2, 0, 2, 2, 8, 0, 8, 0],
    },
    Row {
        name: "by column: moment 1,000,000,000,001",
        trace: &[1, 16, 165, 212, 232, 0, 0, 0, 0, 0, 1, 0, 0, 0, 0],
        columns: &[1, 0, 0, 0, 1, 16, 165, 212, 232, 0, 0, 0, 0, 0, 1, 0, 0, 0, 0],
    },
    Row {
        name: "by column: step 1,024 and none before it",
        trace: &[5, 0, 0, 0, 0, 0, 0, 0, 0, 4, 1, 0, 0, 0, 0],
        columns: &[1, 0, 0, 0, 5, 0, 0, 0, 0, 0, 0, 0, 0, 4, 1, 0, 0, 0, 0],
    },
    Row {
        name: "by column: numbers that rise by a higher byte alone",
        trace: &[
            255, 0, 0, 0, 0, 0, 0, 0, 255, 0, 2, 0, 1, 255, 0, 1, 0, 1, //
            255, 0, 0, 0, 0, 0, 0, 0, 0, 1, 1, 0, 1, 0, 0, //
            0, 1, 0, 0, 0, 0, 0, 0, 0, 0, 1, 0, 1, 0, 0,
        ],
        columns: &[
            3, 0, 0, 0, //
            255, 0, 0, 0, 0, 0, 0, 0, 255, 0, 0, 0, 0, 0, 0, 0, 0, 1, 0, 0, 0, 0, 0, 0, //
            255, 0, 0, 1, 0, 0, 2, 0, 1, 0, 1, 0, 1, 1, 1, 1, 255, 0, 0, 1, 0, 0, 0, 0,
        ],
    },
    Row {
        name: "by column: the highest numbers",
        trace: &[
            255, 255, 255, 255, 255, 255, 255, 127, 255, 255, 1, 0, 3, 255, 255, //
            255, 255, 255, 255, 255, 255, 255, 255, 255, 127, 1, 0, 3, 255, 255, //
            255, 255, 255, 255, 255, 255, 255, 255, 255, 255, 1, 0, 3, 255, 255,
        ],
        columns: &[
            3, 0, 0, 0, //
            255, 255, 255, 255, 255, 255, 255, 127, 255, 255, 255, 255, 255, 255, 255, 255, //
            255, 255, 255, 255, 255, 255, 255, 255, 255, 255, 255, 127, 255, 255, //
            1, 0, 1, 0, 1, 0, 3, 3, 3, 255, 255, 255, 255, 255, 255,
        ],
    },
];

/// Bytes that do not go this way.
type Refused = (&'static str, Way, &'static [u8]);

const REFUSED: [Refused; 20] = [
    ("no trace: cut in a head", Way::There, &[5, 0, 0, 0, 0, 0, 0, 0, 0, 0, 1]),
    (
        "no trace: cut before the messages",
        Way::There,
        &[5, 0, 0, 0, 0, 0, 0, 0, 0, 0, 1, 0, 0, 7, 0, 6, 0, 0, 0, 0, 0, 0, 0, 0, 0, 1, 0],
    ),
    ("no trace: cut in a message", Way::There, &[5, 0, 0, 0, 0, 0, 0, 0, 0, 0, 1, 0, 0, 7]),
    ("no trace: a byte left over", Way::There, &[5, 0, 0, 0, 0, 0, 0, 0, 0, 0, 1, 0, 0, 7, 0, 0]),
    ("no trace: empty record", Way::There, &[5, 0, 0, 0, 0, 0, 0, 0, 0, 0, 0, 0]),
    (
        "no trace: pair repeated",
        Way::There,
        &[
            5, 0, 0, 0, 0, 0, 0, 0, 1, 0, 1, 0, 0, 7, 0, //
            5, 0, 0, 0, 0, 0, 0, 0, 1, 0, 1, 0, 0, 7, 0,
        ],
    ),
    (
        "no trace: step falls",
        Way::There,
        &[
            5, 0, 0, 0, 0, 0, 0, 0, 1, 0, 1, 0, 0, 7, 0, //
            5, 0, 0, 0, 0, 0, 0, 0, 0, 0, 1, 0, 0, 7, 0,
        ],
    ),
    (
        "no trace: moment falls as the step rises",
        Way::There,
        &[
            5, 0, 0, 0, 0, 0, 0, 0, 1, 0, 1, 0, 0, 7, 0, //
            4, 0, 0, 0, 0, 0, 0, 0, 2, 0, 1, 0, 0, 7, 0,
        ],
    ),
    (
        "no trace: messages fall by port",
        Way::There,
        &[5, 0, 0, 0, 0, 0, 0, 0, 0, 0, 2, 0, 1, 7, 0, 0, 8, 0],
    ),
    (
        "no trace: messages fall by value",
        Way::There,
        &[5, 0, 0, 0, 0, 0, 0, 0, 0, 0, 2, 0, 1, 7, 0, 1, 6, 0],
    ),
    ("no trace: port 4", Way::There, &[5, 0, 0, 0, 0, 0, 0, 0, 0, 0, 1, 0, 4, 7, 0]),
    ("no columns: no byte", Way::Back, &[]),
    ("no columns: three bytes", Way::Back, &[0, 0, 0]),
    ("no columns: no record, and a byte left over", Way::Back, &[0, 0, 0, 0, 0]),
    (
        "no columns: a message left over",
        Way::Back,
        &[1, 0, 0, 0, 5, 0, 0, 0, 0, 0, 0, 0, 0, 0, 1, 0, 0, 7, 0, 0, 7, 0],
    ),
    (
        "no columns: a value cut off",
        Way::Back,
        &[1, 0, 0, 0, 5, 0, 0, 0, 0, 0, 0, 0, 0, 0, 2, 0, 0, 0, 7, 0],
    ),
    ("no columns: empty record", Way::Back, &[1, 0, 0, 0, 5, 0, 0, 0, 0, 0, 0, 0, 0, 0, 0, 0]),
    (
        "no columns: pair repeated",
        Way::Back,
        &[
            2, 0, 0, 0, 5, 0, 0, 0, 0, 0, 0, 0, 5, 0, 0, 0, 0, 0, 0, 0, //
            1, 0, 1, 0, 1, 0, 1, 0, 0, 0, 7, 0, 7, 0,
        ],
    ),
    (
        "no columns: messages fall",
        Way::Back,
        &[1, 0, 0, 0, 5, 0, 0, 0, 0, 0, 0, 0, 0, 0, 2, 0, 1, 1, 7, 0, 6, 0],
    ),
    ("no columns: port 4", Way::Back, &[1, 0, 0, 0, 5, 0, 0, 0, 0, 0, 0, 0, 0, 0, 1, 0, 4, 7, 0]),
];

pub fn names() -> impl Iterator<Item = &'static str> {
    ROWS.iter().map(|row| row.name).chain(REFUSED.iter().map(|(name, ..)| *name))
}

/// Every row, into lent buffers of every length up to some bytes more than are needed.
pub fn all(comparison: &mut Comparison, _: &mut Random) -> Compared<()> {
    for row in &ROWS {
        both_ways(comparison, row).map_err(|fault| format!("{}, {fault}", row.name))?;
        comparison.counts.meet(row.name);
    }
    for (name, way, bytes) in REFUSED {
        let found = comparison.refused_whole(way, bytes);
        found.map_err(|fault| format!("{name}, {fault}"))?;
        comparison.counts.meet(name);
    }
    Ok(())
}

fn both_ways(comparison: &mut Comparison, row: &Row) -> Compared<()> {
    for (way, from, to) in
        [(Way::There, row.trace, row.columns), (Way::Back, row.columns, row.trace)]
    {
        for lent in 0..=to.len() + 3 {
            let mut expected = junk(lent);
            let (written, out) = comparison.rearrange(way, from, &expected.clone())?;
            let number = if lent < to.len() { 15 } else { 0 };
            if number == 0 {
                expected[..to.len()].copy_from_slice(to);
            }
            if written.number != number || out != expected {
                let name = way.name();
                return Err(format!("{name} into {lent} bytes gives {written:?} and {out:?}"));
            }
        }
        if comparison.there_and_back(way, from)? != to {
            return Err(format!("{} and back by other bytes", way.name()));
        }
    }
    Ok(())
}
