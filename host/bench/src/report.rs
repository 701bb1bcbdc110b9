//! Tables of what was measured. The subject is the proved library where it is linked, and else the
//! first engine; ratios are the subject's speed as a part of another engine's.

/// The least ratio that is wanted.
const GOAL: f64 = 0.8;
const LABEL: usize = 26;
const FACT: usize = 8;
const COLUMN: usize = 11;

/// One line of a table.
pub struct Line<'l> {
    pub label: &'l str,
    /// What stands between the label and the times.
    pub facts: &'l [String],
    /// By engine.
    pub nanoseconds: &'l [f64],
    /// How often in a second the subject does what was timed.
    pub rate: Option<f64>,
    /// Whether a goal is set against the other engines too, and not against the first one alone.
    pub held_to_all: bool,
}

/// The ratios to an engine, with their places, of all lines where a goal is set.
#[derive(Default)]
struct Ratios {
    met: Vec<(f64, String)>,
}

pub struct Report {
    names: Vec<&'static str>,
    /// Where a goal is set against the other engines, as the summary has it behind their names.
    others_where: &'static str,
    pub subject: usize,
    ratios: Vec<Ratios>,
}

impl Report {
    /// For these engines, the one with the library's algorithm first.
    pub fn new(names: Vec<&'static str>, others_where: &'static str) -> Report {
        let subject = names.iter().position(|&name| name == "library").unwrap_or(0);
        let ratios = names.iter().map(|_| Ratios::default()).collect();
        Report { names, others_where, subject, ratios }
    }

    fn others(&self) -> impl Iterator<Item = usize> {
        let subject = self.subject;
        (0..self.names.len()).filter(move |&engine| engine != subject)
    }

    /// The head of a table.
    pub fn head(&self, title: &str, facts: &[&str], unit: &str, rate: Option<&str>) {
        println!("\n{title}");
        let mut line = format!("{:LABEL$}", "");
        facts.iter().for_each(|fact| line += &format!("{fact:>FACT$}"));
        for name in &self.names {
            line += &format!("{:>COLUMN$}", *name);
        }
        if let Some(rate) = rate {
            line += &format!("{rate:>COLUMN$}");
        }
        for other in self.others() {
            line += &format!("{:>14}", format!("/ {}", self.names[other]));
        }
        println!("{line}   ({unit})");
    }

    pub fn line(&mut self, line: &Line) {
        let mut text = format!("{:LABEL$}", line.label);
        line.facts.iter().for_each(|fact| text += &format!("{fact:>FACT$}"));
        line.nanoseconds.iter().for_each(|time| text += &format!("{time:>COLUMN$.1}"));
        if let Some(rate) = line.rate {
            text += &format!("{rate:>COLUMN$.0}");
        }
        for other in self.others().collect::<Vec<usize>>() {
            let ratio = line.nanoseconds[other] / line.nanoseconds[self.subject];
            let wanted = self.is_wanted(other, line.held_to_all);
            let mark = if wanted && ratio < GOAL { '!' } else { ' ' };
            text += &format!("{ratio:>13.2}{mark}");
            if wanted {
                self.ratios[other].meet(ratio, line);
            }
        }
        println!("{}", text.trim_end());
    }

    /// The goals are set for the library.
    fn is_wanted(&self, other: usize, held_to_all: bool) -> bool {
        self.names[self.subject] == "library" && (other == 0 || held_to_all)
    }

    /// What one more of a size costs, from the first to the last line of a series.
    pub fn growth(&self, first: (u64, &[f64]), last: (u64, &[f64])) {
        let more = (last.0 - first.0) as f64;
        let costs = first.1.iter().zip(last.1).map(|(before, after)| (after - before) / more);
        self.below("  one more costs", 1, costs);
    }

    /// A line without ratios and without a goal, below one with so many facts: a figure by engine.
    pub fn below(&self, label: &str, facts: usize, figures: impl Iterator<Item = f64>) {
        let mut text = format!("{label:LABEL$}{:1$}", "", facts * FACT);
        figures.for_each(|figure| text += &format!("{figure:>COLUMN$.2}"));
        println!("{text}");
    }

    /// What a change is held to: the middle and the lowest ratio, and how many rows reach the goal.
    pub fn goals(&mut self) {
        for other in self.others().collect::<Vec<usize>>() {
            let place = if other == 0 { "" } else { self.others_where };
            if let Some(summary) = self.ratios[other].summary() {
                println!("of {}{place}: {summary}", self.names[other]);
            }
        }
    }
}

impl Ratios {
    fn meet(&mut self, ratio: f64, line: &Line) {
        self.met.push((ratio, format!("{} {}", line.label, line.facts.join(" "))));
    }

    fn summary(&mut self) -> Option<String> {
        self.met.sort_by(|a, b| a.0.total_cmp(&b.0));
        let (worst, label) = self.met.first()?;
        let count = self.met.len();
        let median = (self.met[(count - 1) / 2].0 + self.met[count / 2].0) / 2.0;
        let reached = self.met.iter().filter(|(ratio, _)| *ratio >= GOAL).count();
        Some(format!(
            "median {median:.2}, worst {worst:.2} ({label}), {reached} of {count} rows at {GOAL} or more"
        ))
    }
}
