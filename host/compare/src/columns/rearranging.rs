//! Rearranging on every engine: all answers, all bytes of the lent buffer, and what the papers say of every
//! such call, tested on the outcome itself.

use super::kinds;
use crate::call::Kind;
use crate::comparison::{same, shown, Compared, Comparison};
use crate::counts::Counts;
use crate::lent::Lent;
use reference::columns::HEAD_BYTES;
use reference::engine::Rearranger;
use reference::Written;

/// From a trace to its columns, or from columns back to their trace.
#[derive(Clone, Copy, Debug, PartialEq, Eq)]
pub enum Way {
    There,
    Back,
}

impl Way {
    pub fn other(self) -> Way {
        match self {
            Way::There => Way::Back,
            Way::Back => Way::There,
        }
    }

    /// The number of bytes that do not go this way.
    pub fn refusal(self) -> u64 {
        match self {
            Way::There => 17,
            Way::Back => 18,
        }
    }

    /// How many bytes so many become where they are not refused: columns have the record count more.
    pub fn length(self, bytes: usize) -> usize {
        match self {
            Way::There => bytes + HEAD_BYTES,
            Way::Back => bytes.saturating_sub(HEAD_BYTES),
        }
    }

    /// The name of the call.
    pub fn name(self) -> &'static str {
        match self {
            Way::There => "trace_to_columns",
            Way::Back => "columns_to_trace",
        }
    }

    fn kind(self) -> Kind {
        match self {
            Way::There => Kind::TraceToColumns,
            Way::Back => Kind::ColumnsToTrace,
        }
    }

    fn make(self, engine: &dyn Rearranger, bytes: &[u8], out: &mut [u8]) -> Written {
        match self {
            Way::There => engine.trace_to_columns(bytes, out),
            Way::Back => engine.columns_to_trace(bytes, out),
        }
    }

    fn by_the_reference(self, bytes: &[u8], out: &mut [u8]) -> Written {
        match self {
            Way::There => reference::trace_to_columns(bytes, out),
            Way::Back => reference::columns_to_trace(bytes, out),
        }
    }
}

/// Lengths of lent buffers, each way.
const THERE: [&str; 6] = [
    "trace_to_columns: buffer exactly long enough",
    "trace_to_columns: buffer longer than the columns",
    "trace_to_columns: buffer one byte too short",
    "trace_to_columns: empty buffer",
    "trace_to_columns: no trace, and a buffer long enough",
    "trace_to_columns: no trace, and a buffer too short",
];
const BACK: [&str; 6] = [
    "columns_to_trace: buffer exactly long enough",
    "columns_to_trace: buffer longer than the trace",
    "columns_to_trace: buffer one byte too short",
    "columns_to_trace: empty buffer",
    "columns_to_trace: columns of no trace, and a buffer long enough",
    "columns_to_trace: columns of no trace, and a buffer too short",
];

pub fn names() -> impl Iterator<Item = &'static str> {
    THERE.into_iter().chain(BACK)
}

/// Counts the length of a lent buffer by what came of it.
fn notice(counts: &mut Counts, way: Way, needed: usize, lent: usize, number: u64) {
    let names = if way == Way::There { THERE } else { BACK };
    let refused = number == way.refusal();
    let met = [
        number == 0 && lent == needed,
        number == 0 && lent > needed,
        number == 15 && lent + 1 == needed,
        number == 15 && lent == 0,
        refused && lent >= needed,
        refused && lent < needed,
    ];
    names.into_iter().zip(met).filter(|(_, met)| *met).for_each(|(name, _)| counts.meet(name));
}

/// What holds of every call. `needed` bytes are written where nothing is refused.
fn law(way: Way, needed: usize, written: &Written, first: &[u8], out: &[u8]) -> Compared<()> {
    let holds = |condition: bool, what: &str| {
        condition.then_some(()).ok_or_else(|| format!("this does not hold: {what}"))
    };
    match written.number {
        0 => {
            holds(written.bytes == needed as u64, "columns are 4 bytes longer than their trace")?;
            holds(out[needed..] == first[needed..], "bytes past those written stay")
        }
        number => {
            holds(number == 15 || number == way.refusal(), "17 and 15 there, 18 and 15 back")?;
            holds(number != 15 || first.len() < needed, "15 where the buffer is too short")?;
            holds(written.bytes == 0, "a refusal comes with zeros")?;
            holds(out == first, "a refusal writes no byte")
        }
    }
}

/// First bytes of a lent buffer, no two neighbours alike.
pub fn junk(length: usize) -> Vec<u8> {
    (0..length).map(|place| (place * 37 + 11) as u8).collect()
}

impl Comparison {
    /// Rearranges on every engine, into a buffer with these first bytes. Answers what is answered and the
    /// buffer's content.
    pub fn rearrange(
        &mut self,
        way: Way,
        bytes: &[u8],
        first: &[u8],
    ) -> Compared<(Written, Vec<u8>)> {
        let in_words = |fault: String| {
            let (name, lent) = (way.name(), first.len());
            format!("{fault}\nin {name} into {lent} bytes, {}", shown("input", bytes))
        };
        let mut out = first.to_vec();
        let written = way.by_the_reference(bytes, &mut out);
        for (name, engine) in &self.rearrangers {
            let mut lent = Lent::new(first);
            let answer = way.make(engine.as_ref(), bytes, lent.buffer());
            same(name, "buffer", &answer, &written, &lent, &out).map_err(in_words)?;
        }
        let needed = way.length(bytes.len());
        law(way, needed, &written, first, &out).map_err(in_words)?;
        self.rearranged += 1;
        self.counts.number(way.kind(), written.number);
        notice(&mut self.counts, way, needed, first.len(), written.number);
        if way == Way::There && written.number == 0 {
            self.counts.kinds(kinds::of_trace(bytes));
        }
        Ok((written, out))
    }

    /// Rearranges what must be accepted, into a buffer that is long enough or a little longer.
    fn rearranged_whole(&mut self, way: Way, bytes: &[u8]) -> Compared<Vec<u8>> {
        let beyond = self.rearranged as usize % 3;
        let first = junk(way.length(bytes.len()) + beyond);
        let (written, mut out) = self.rearrange(way, bytes, &first)?;
        if written.number != 0 {
            let (name, number) = (way.name(), written.number);
            return Err(format!("{name} answers {number}, not 0, for {}", shown("input", bytes)));
        }
        out.truncate(written.bytes as usize);
        Ok(out)
    }

    /// One way, back, and the same way again: byte for byte what it was. Answers what lies at the other end.
    pub fn there_and_back(&mut self, way: Way, bytes: &[u8]) -> Compared<Vec<u8>> {
        let other = self.rearranged_whole(way, bytes)?;
        let back = self.rearranged_whole(way.other(), &other)?;
        if back != bytes {
            let (name, back) = (way.name(), shown("other bytes", &back));
            return Err(format!("{name} and back gave {back}, for {}", shown("input", bytes)));
        }
        if self.rearranged_whole(way, &back)? != other {
            return Err(format!("{} again gave other bytes", way.name()));
        }
        Ok(other)
    }

    /// What must be refused is refused whether the buffer is long enough or not: 17 and 18 come before 15.
    pub fn refused_whole(&mut self, way: Way, bytes: &[u8]) -> Compared<()> {
        let needed = way.length(bytes.len());
        for lent in [needed, needed + 5, needed.saturating_sub(1), 0] {
            let number = self.rearrange(way, bytes, &junk(lent))?.0.number;
            if number != way.refusal() {
                let (name, expected, input) = (way.name(), way.refusal(), shown("input", bytes));
                return Err(format!("{name} answers {number}, not {expected}, for {input}"));
            }
        }
        Ok(())
    }
}
