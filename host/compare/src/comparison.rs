//! Making the same call on every engine, and comparing all answers and all bytes of all lent buffers.

use crate::call::{Answer, Call, Kind};
use crate::channels;
use crate::columns::joined::Joined;
use crate::counts::Counts;
use crate::engine::{Engine, Form, Rearranger, Subject, Yardstick};
use crate::feeds;
use crate::laws::{self, Buffers};
use crate::lent::Lent;
use crate::notice;
use crate::ranges;
use crate::rules_table;
use reference::decode::decode;
use reference::model::Model;
use reference::Written;

/// What differed, in words.
pub type Compared<T> = Result<T, String>;

pub struct Comparison {
    subjects: Vec<Subject>,
    /// By name.
    pub rearrangers: Vec<(&'static str, Box<dyn Rearranger>)>,
    pub counts: Counts,
    /// The calls on models, those that feeds were held against, those on channels with what they were held
    /// against, and the calls that rearrange traces.
    pub calls: u64,
    pub calls_in_turn: u64,
    pub calls_about_channels: u64,
    pub rearranged: u64,
}

/// A list of calls on one model over one run buffer, of which each engine has its own.
pub struct CallList<'c> {
    comparison: &'c mut Comparison,
    pub file: Vec<u8>,
    pub model: Option<Model>,
    flat: Option<Vec<u8>>,
    yardstick: Yardstick,
    run: Lent,
    runs: Vec<Lent>,
    joined: Joined,
}

/// What all engines answer to a call, and the content of the trace and of the table of rules it lent.
pub struct Outcome {
    pub answer: Answer,
    pub trace: Vec<u8>,
    pub rules: Vec<u8>,
}

impl Outcome {
    /// The records that an advance or a feed wrote, or the channel at the front.
    pub fn records(&self) -> &[u8] {
        match self.answer {
            Answer::Advanced(answer) => &self.trace[..answer.trace_bytes as usize],
            Answer::Fed(answer) => &self.trace[..answer.trace_bytes as usize],
            Answer::Channels(answer) => &self.trace[..answer.channels[0].trace_bytes as usize],
            _ => &[],
        }
    }
}

impl Comparison {
    pub fn new(
        subjects: Vec<Subject>,
        rearrangers: Vec<(&'static str, Box<dyn Rearranger>)>,
        counts: Counts,
    ) -> Comparison {
        Comparison {
            subjects,
            rearrangers,
            counts,
            calls: 0,
            calls_in_turn: 0,
            calls_about_channels: 0,
            rearranged: 0,
        }
    }

    /// The number by which every engine refuses the file, or 0.
    pub fn check_model(&mut self, file: &[u8]) -> Compared<u64> {
        let number = reference::check_model(file);
        for subject in self.subjects.iter().filter(|subject| subject.form == Form::AsGiven) {
            let answer = subject.engine.check_model(file);
            if answer != number {
                return Err(format!(
                    "{}: check_model answers {answer}, not {number}",
                    subject.name
                ));
            }
        }
        self.calls += 1;
        self.counts.number(Kind::CheckModel, number);
        Ok(number)
    }

    /// Flattens into a buffer with these first bytes. Answers what is answered and the buffer's content.
    pub fn flatten(&mut self, file: &[u8], first: &[u8]) -> Compared<(Written, Vec<u8>)> {
        let mut out = first.to_vec();
        let written = reference::flatten(file, &mut out);
        for subject in self.subjects.iter().filter(|subject| subject.form == Form::AsGiven) {
            let mut lent = Lent::new(first);
            let answer = subject.engine.flatten(file, lent.buffer());
            same(subject.name, "buffer for the flat form", &answer, &written, &lent, &out)
                .map_err(|difference| format!("{difference}\n{}", shown("model", file)))?;
        }
        let length = written.bytes as usize;
        if out[length..] != first[length..] {
            return Err("flattening wrote past its length".into());
        }
        if written.number == 0 {
            ranges::test_flat_form(&mut self.counts, file, &out[..length])?;
        }
        self.calls += 1;
        self.counts.number(Kind::Flatten, written.number);
        Ok((written, out))
    }

    /// Begins a list of calls over a run buffer with these first bytes.
    pub fn list(&mut self, file: &[u8], first_run: &[u8]) -> CallList<'_> {
        let model = decode(file).ok();
        let flat = model.as_ref().map(|model| reference::flatten::flat_form(model).encode());
        let runs = self.subjects.iter().map(|_| Lent::new(first_run)).collect();
        CallList {
            file: file.to_vec(),
            model,
            flat,
            yardstick: Yardstick::new(file),
            run: Lent::new(first_run),
            runs,
            joined: Joined::default(),
            comparison: self,
        }
    }
}

impl CallList<'_> {
    /// The content of the run buffer, the same for all engines.
    pub fn run(&self) -> &[u8] {
        self.run.content()
    }

    pub fn counts(&mut self) -> &mut Counts {
        &mut self.comparison.counts
    }

    /// Makes a call on every engine.
    pub fn call(&mut self, call: &Call) -> Compared<Outcome> {
        let run_before = self.run.content().to_vec();
        let mut beside = call.lent_beside();
        let answer = call.make(&self.yardstick, &self.file, &mut self.run, &mut beside);
        let (trace, rules) = (beside.trace.content(), beside.rules.content());
        let observed = self.yardstick.take_observed();
        let calls_of_feed = self.yardstick.take_calls_of_feed();
        for (subject, run) in self.comparison.subjects.iter().zip(&mut self.runs) {
            let model = match (subject.form, &self.flat) {
                (Form::AsGiven, _) => &self.file,
                (Form::Flat, Some(flat)) => flat,
                // A refused file has no flat form.
                (Form::Flat, None) => continue,
            };
            let mut lent = call.lent_beside();
            let engine: &dyn Engine = subject.engine.as_ref();
            let other = call.make(engine, model, run, &mut lent);
            for (what, lent, content) in [
                ("run buffer", &*run, self.run.content()),
                ("trace", &lent.trace, trace),
                ("table of rules", &lent.rules, rules),
            ] {
                let found = same(subject.name, what, &other, &answer, lent, content);
                found.map_err(|difference| {
                    format!("{difference}\nin {call}\n{}", shown("model", &self.file))
                })?;
            }
        }
        let before = Buffers { run: &run_before, trace: call.trace(), rules: call.rules() };
        let after = Buffers { run: self.run.content(), trace, rules };
        laws::test(self.model.as_ref(), call, &answer, &before, &after)
            .and_then(|()| laws::test_bags(&observed))
            .map_err(|law| {
                format!("{law}\nin {call}, answered {answer:?}\n{}", shown("model", &self.file))
            })?;
        let counts = &mut self.comparison.counts;
        match call {
            Call::Channels(_) => self.comparison.calls_about_channels += 1,
            _ => self.comparison.calls += 1,
        }
        counts.number(call.kind(), answer.number());
        counts.transitions(&observed);
        notice::notice(counts, self.model.as_ref(), call, &answer, &run_before, &observed);
        rules_table::notice(counts, self.model.as_ref(), call, &answer, &observed.last_instant);
        ranges::notice(counts, self.model.as_ref(), call, answer.number(), &observed);
        feeds::notice(counts, self.model.as_ref(), call, &answer, &run_before, &calls_of_feed);
        channels::notice(counts, self.model.as_ref(), call, &answer, &run_before);
        let outcome = Outcome { answer, trace: trace.to_vec(), rules: rules.to_vec() };
        self.comparison
            .rearrange_run(&mut self.joined, call, &outcome)
            .map_err(|fault| format!("{fault}\nin {call}\n{}", shown("model", &self.file)))?;
        Ok(outcome)
    }
}

/// A file's bytes in hexadecimal digits, where they are few enough to be read.
pub fn shown(what: &str, file: &[u8]) -> String {
    let digits: String = file.iter().take(800).map(|byte| format!("{byte:02x}")).collect();
    let more = if file.len() > 800 { " .." } else { "" };
    format!("{what} of {} bytes: {digits}{more}", file.len())
}

/// Compares an answer and a lent buffer with those of the yardstick, or of the reference.
pub fn same<A: PartialEq + std::fmt::Debug>(
    name: &str,
    what: &str,
    answer: &A,
    expected: &A,
    lent: &Lent,
    content: &[u8],
) -> Compared<()> {
    if answer != expected {
        return Err(format!("{name}: answers {answer:?}\nbut should answer {expected:?}"));
    }
    if !lent.margins_stay() {
        return Err(format!("{name}: a byte outside the lent {what} was written"));
    }
    match lent.content().iter().zip(content).position(|(byte, right)| byte != right) {
        Some(at) => Err(format!(
            "{name}: byte {at} of the lent {what} is {} but should be {}",
            lent.content()[at],
            content[at]
        )),
        None => Ok(()),
    }
}
