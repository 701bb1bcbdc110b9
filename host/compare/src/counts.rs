//! What a comparison run has met, and what it must meet to pass.

use crate::call::Kind;
use crate::{channels, columns, feeds, ranges, rules_table};
use reference::limits::{ANCESTORS, CHANNELS};
use reference::lit_rules::LastInstant;
use reference::observed::Observed;
use std::collections::BTreeMap;

const KINDS: [(Kind, &str); 9] = [
    (Kind::CheckModel, "check_model"),
    (Kind::Start, "start"),
    (Kind::Advance, "advance"),
    (Kind::AdvanceFeed, "advance_feed"),
    (Kind::AdvanceChannels, "advance_channels"),
    (Kind::Read, "read"),
    (Kind::Flatten, "flatten"),
    (Kind::TraceToColumns, "trace_to_columns"),
    (Kind::ColumnsToTrace, "columns_to_trace"),
];

/// One more than the highest number.
const NUMBERS: usize = 23;

/// Strays after some time in the phase, by the atomic's ancestors.
const STRAYS: [&str; ANCESTORS] = [
    "stray with 1 ancestor",
    "stray with 2 ancestors",
    "stray with 3 ancestors",
    "stray with 4 ancestors",
    "stray with 5 ancestors",
    "stray with 6 ancestors",
    "stray with 7 ancestors",
    "stray with 8 ancestors",
];

/// The numbers that a kind of call can give. 14 is retired: a run in which a call answers it fails.
fn possible_numbers(kind: Kind) -> Vec<usize> {
    let others: &[usize] = match kind {
        Kind::CheckModel => &[],
        Kind::Start | Kind::Flatten => &[15],
        Kind::Advance => &[10, 11, 12, 13, 15],
        Kind::AdvanceFeed => &[10, 11, 13, 15, 19],
        Kind::AdvanceChannels => &[21],
        Kind::Read => &[10, 16],
        Kind::TraceToColumns => return vec![0, 15, 17],
        Kind::ColumnsToTrace => return vec![0, 15, 18],
    };
    (0..=9).chain([20]).chain(others.iter().copied()).collect()
}

/// The numbers that a channel can get alone, wherever it stands among the others.
const OF_A_CHANNEL: [usize; 7] = [0, 10, 11, 12, 13, 15, 22];

#[derive(Default)]
pub struct Counts {
    numbers: [[u64; NUMBERS]; KINDS.len()],
    /// By the channel's position. Few random models have an endless instant, so that 13 is met in cases made for it.
    of_channels: [[Met; NUMBERS]; CHANNELS],
    kinds: BTreeMap<&'static str, Met>,
    named: BTreeMap<&'static str, u64>,
    /// Whether the calls at hand are on a random model, or on a random trace.
    pub at_random: bool,
}

/// How often a kind of transition, of range, of trace, of feed or of call on channels was met. Each comes in a case made for it; those that chance
/// has made count apart, so that a generator which has lost a kind is told.
#[derive(Clone, Copy, Default)]
struct Met {
    in_all_cases: u64,
    at_random: u64,
}

impl Met {
    fn count(&mut self, count: u64, at_random: bool) {
        self.in_all_cases += count;
        self.at_random += if at_random { count } else { 0 };
    }
}

impl Counts {
    pub fn new(names_to_meet: impl IntoIterator<Item = &'static str>) -> Counts {
        let named = names_to_meet.into_iter().map(|name| (name, 0)).collect();
        let mut counts = Counts { named, ..Counts::default() };
        counts.transitions(&Observed::default());
        counts.kinds(rules_table::kinds(&LastInstant::default()));
        counts.kinds(ranges::calls(None));
        counts.kinds(columns::kinds());
        counts.kinds(feeds::kinds());
        counts.kinds(channels::kinds());
        counts
    }

    pub fn number(&mut self, kind: Kind, number: u64) {
        let row = KINDS.iter().position(|(known, _)| *known == kind).expect("every kind is listed");
        self.numbers[row][number as usize] += 1;
    }

    /// The number that a channel got alone.
    pub fn number_of_channel(&mut self, channel: usize, number: u64) {
        self.of_channels[channel][number as usize].count(1, self.at_random);
    }

    pub fn transitions(&mut self, observed: &Observed) {
        let kinds = [
            ("internal", observed.internal),
            ("internal after a stray", observed.internal_after_stray),
            ("external with a rule", observed.external_by_rule),
            ("external with a rule after a stray", observed.external_by_rule_after_stray),
            ("external with a rule into the same phase", observed.external_into_same_phase),
            ("external without a rule", observed.external_without_rule),
            ("confluent, order 0", observed.confluent_internal_first),
            ("confluent, order 0, without a rule", observed.confluent_internal_first_without_rule),
            ("confluent, order 0, after a stray", observed.confluent_internal_first_after_stray),
            ("confluent, order 1", observed.confluent_external_first),
            ("confluent, order 1, without a rule", observed.confluent_external_first_without_rule),
            ("confluent, order 1, after a stray", observed.confluent_external_first_after_stray),
            ("none", observed.unchanged),
            ("coupled component whose bag dies inside", observed.bags_lost_inside),
        ];
        self.kinds(kinds.into_iter().chain(STRAYS.into_iter().zip(observed.strays)));
        self.kinds(ranges::kinds(&observed.range_ends));
    }

    /// Counts how often kinds of transitions, of what they light, of ranges, of traces, of feeds, or of calls on
    /// channels were met.
    pub fn kinds(&mut self, kinds: impl Iterator<Item = (&'static str, u64)>) {
        for (name, count) in kinds {
            self.kinds.entry(name).or_default().count(count, self.at_random);
        }
    }

    /// Counts a boundary or a kind of damage that was met.
    pub fn meet(&mut self, name: &'static str) {
        *self.named.get_mut(name).unwrap_or_else(|| panic!("{name} is not listed")) += 1;
    }

    pub fn print(&self) {
        let largest = self.numbers.iter().flatten().max().copied().unwrap_or(0);
        let width = largest.to_string().len().max(8) + 1;
        let columns = |row: &[u64]| row.iter().map(|n| format!("{n:>width$}")).collect::<String>();
        println!("numbers answered:");
        println!("{:>16}{}", "", columns(&(0..NUMBERS as u64).collect::<Vec<u64>>()));
        for (row, (_, name)) in self.numbers.iter().zip(KINDS) {
            println!("{name:>16}{}", columns(row));
        }
        for (channel, row) in self.of_channels.iter().enumerate() {
            let name = format!("channel {channel} alone");
            println!("{name:>16}{}", columns(&row.map(|met| met.in_all_cases)));
        }
        println!(
            "transitions, what they light, ranges, traces, feeds, and channels, in all cases and at random:"
        );
        for (name, Met { in_all_cases, at_random }) in &self.kinds {
            println!("{in_all_cases:>12}{at_random:>12}  {name}");
        }
        println!("boundaries and damages:");
        self.named.iter().for_each(|(name, count)| println!("{count:>12}  {name}"));
    }

    /// What should have been met and was not, or was met and should not have been.
    pub fn faults(&self) -> Vec<String> {
        let lost = self.kinds.iter().filter(|(_, met)| met.at_random == 0);
        let mut faults = self.faults_of_all_cases();
        faults.extend(lost.map(|(name, _)| format!("never met at random: {name}")));
        for (channel, row) in self.of_channels.iter().enumerate() {
            let lost =
                OF_A_CHANNEL.iter().filter(|&&number| number != 13 && row[number].at_random == 0);
            faults
                .extend(lost.map(|number| format!("channel {channel} never at random: {number}")));
        }
        faults
    }

    /// The same, wherever it was met.
    pub fn faults_of_all_cases(&self) -> Vec<String> {
        let mut faults = Vec::new();
        for (row, (kind, name)) in self.numbers.iter().zip(KINDS) {
            let possible = possible_numbers(kind);
            for (number, &count) in row.iter().enumerate() {
                match (possible.contains(&number), count) {
                    (true, 0) => faults.push(format!("{name} never answered {number}")),
                    (false, 1..) => faults.push(format!("{name} answered {number}")),
                    _ => {}
                }
            }
        }
        for (channel, row) in self.of_channels.iter().enumerate() {
            for (number, met) in row.iter().enumerate() {
                match (OF_A_CHANNEL.contains(&number), met.in_all_cases) {
                    (true, 0) => faults.push(format!("channel {channel} never answered {number}")),
                    (false, 1..) => faults.push(format!("channel {channel} answered {number}")),
                    _ => {}
                }
            }
        }
        let kinds = self.kinds.iter().map(|(name, met)| (name, met.in_all_cases));
        let named = self.named.iter().map(|(name, count)| (name, *count));
        let never = kinds.chain(named).filter(|(_, count)| *count == 0);
        faults.extend(never.map(|(name, _)| format!("never met: {name}")));
        faults
    }
}

#[test]
fn what_was_never_met_is_told() {
    let mut counts = Counts::new(["a boundary", "another"]);
    counts.meet("another");
    KINDS.into_iter().for_each(|(kind, _)| counts.number(kind, 14));
    counts.number(Kind::Read, 16);
    let faults = counts.faults();
    let told = |fault: &str| faults.iter().any(|known| known == fault);
    assert!(told("never met: a boundary") && !told("never met: another"));
    assert!(told("never met: internal") && told("start never answered 15"));
    assert!(told("advance never answered 20") && !told("trace_to_columns never answered 20"));
    assert!(KINDS.iter().all(|(_, name)| told(&format!("{name} answered 14"))));
    assert!(!told("read never answered 16"));
}

#[test]
fn a_stray_that_only_fixed_cases_meet_is_told() {
    let mut counts = Counts::new([]);
    let on_level = |ancestors: usize| {
        let mut observed = Observed::default();
        observed.strays[ancestors - 1] = 2;
        observed
    };
    counts.transitions(&on_level(8));
    counts.at_random = true;
    counts.transitions(&on_level(7));
    let faults = counts.faults();
    let told = |fault: &str| faults.iter().any(|known| known == fault);
    assert!(told("never met at random: stray with 8 ancestors"));
    assert!(!told("never met: stray with 8 ancestors"));
    assert!(!told("never met at random: stray with 7 ancestors"));
    assert!(told("never met: stray with 6 ancestors"));
}

#[test]
fn a_tick_that_only_fixed_cases_meet_is_told() {
    let mut counts = Counts::new([]);
    let mut observed = Observed::default();
    observed.range_ends.high_end_left_to_none = [1, 0, 0];
    counts.transitions(&observed);
    counts.at_random = true;
    observed.range_ends.high_end_left_to_none = [0, 0, 1];
    counts.transitions(&observed);
    let faults = counts.faults();
    let told = |fault: &str| faults.iter().any(|known| known == fault);
    assert!(told("never met at random: half-open: high end left to none"));
    assert!(!told("never met: half-open: high end left to none"));
    assert!(!told("never met at random: half-open: high end left to none, order 1"));
    assert!(told("never met: inclusive: high end decides"));
}

#[test]
fn a_channel_that_never_got_a_number_is_told() {
    let mut counts = Counts::new([]);
    counts.number_of_channel(7, 22);
    counts.number_of_channel(3, 21);
    counts.at_random = true;
    counts.number_of_channel(0, 13);
    let faults = counts.faults();
    let told = |fault: &str| faults.iter().any(|known| known == fault);
    assert!(told("channel 6 never answered 22") && !told("channel 7 never answered 22"));
    assert!(told("channel 7 never at random: 22") && told("channel 3 answered 21"));
    assert!(told("channel 1 never answered 13") && !told("channel 1 never at random: 13"));
}
