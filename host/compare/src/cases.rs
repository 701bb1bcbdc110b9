//! The cases of a run: first each limit, each special case and each kind of damage, then random ones.

use crate::arguments;
use crate::call::Call;
use crate::calls_on_model::{self, calls_on_file, well_formed};
use crate::comparison::{Compared, Comparison};
use crate::models::damage::{self, Damage};
use crate::models::{chains, limits, nests};
use crate::random::Random;
use crate::runs::{self, RunDamage, RUN_DAMAGES};
use crate::{channels, columns, feeds, notice, ranges, rules_table, special};
#[cfg(test)]
use crate::{counts::Counts, engine::rearrangers, worked};
use reference::decode::decode;
use reference::model::Model;

/// The names of all boundaries and damages that the cases below must meet.
pub fn names() -> Vec<&'static str> {
    let mut names: Vec<&'static str> = damage::all().iter().map(|damage| damage.name).collect();
    names.extend(limits::all().iter().map(|limit| limit.0));
    names.extend(RUN_DAMAGES.iter().map(|damage| damage.name));
    names.extend(special::names());
    names.extend(columns::names());
    names.extend(feeds::names());
    names.extend(channels::names());
    names.extend(calls_on_model::NAMES);
    names.extend(notice::NOTICED);
    names.extend(rules_table::names());
    names.extend(ranges::NAMES);
    names
}

/// How often each kind of damage is done before the random cases: on several models, since another
/// fault may hide it on one.
const ROUNDS_OF_DAMAGE: usize = 5;

/// The number of cases that come in every run.
pub fn fixed() -> usize {
    let damages = damage::all().len() + RUN_DAMAGES.len();
    let about_calls = feeds::CASES.len() + channels::CASES.len();
    let made_for_something = special::CASES.len() + columns::CASES.len() + about_calls;
    limits::all().len() + made_for_something + ROUNDS_OF_DAMAGE * damages
}

/// One case of a run. The first ones are fixed, the others random.
pub fn case(comparison: &mut Comparison, random: &mut Random, number: usize) -> Compared<()> {
    if number >= fixed() {
        random_case(comparison, random)?;
        return columns::random_trace(comparison, random);
    }
    let mut at = number;
    let limits = limits::all();
    if let Some(limit) = limits.get(at) {
        return at_limit(comparison, random, limit);
    }
    at -= limits.len();
    if let Some(special) = special::CASES.get(at) {
        return special(comparison, random);
    }
    at -= special::CASES.len();
    if let Some(about_traces) = columns::CASES.get(at) {
        return about_traces(comparison, random);
    }
    at -= columns::CASES.len();
    let damages = damage::all();
    let kinds_of_damage = damages.len() + RUN_DAMAGES.len();
    if let Some(at) = at.checked_sub(ROUNDS_OF_DAMAGE * kinds_of_damage) {
        // They stand last: so the cases before them have kept their numbers, and what chance draws for them.
        let about_calls = feeds::CASES.iter().chain(&channels::CASES).nth(at);
        return about_calls.expect("a fixed case")(comparison, random);
    }
    at %= kinds_of_damage;
    match damages.get(at) {
        Some(damage) => damaged(comparison, random, damage),
        None => damaged_run(comparison, random, &RUN_DAMAGES[at - damages.len()]),
    }
}

fn random_case(comparison: &mut Comparison, random: &mut Random) -> Compared<()> {
    match random.below(100) {
        0..=79 => on_random_model(comparison, random),
        80 => {
            let limit = random.pick(&limits::all());
            at_limit(comparison, random, limit)
        }
        81 if random.percent(60) => random.pick(&special::CASES)(comparison, random),
        81 if random.percent(20) => random.pick(&columns::CASES)(comparison, random),
        81..=93 => {
            let damage = random.pick(&damage::all());
            damaged(comparison, random, damage)
        }
        94..=96 => {
            let damage = &RUN_DAMAGES[random.index(RUN_DAMAGES.len())];
            damaged_run(comparison, random, damage)
        }
        97 => garbage(comparison, random),
        _ => bytes_changed(comparison, random),
    }
}

/// Calls on a nest or a chain as chance makes it, with nothing in it for the sake of a boundary.
pub fn on_random_model(comparison: &mut Comparison, random: &mut Random) -> Compared<()> {
    let model = if random.percent(75) { nests::nest(random) } else { chains::chain(random) };
    comparison.counts.at_random = true;
    let outcome = well_formed(comparison, random, &model)
        .and_then(|()| channels::at_random(comparison, random, &model));
    comparison.counts.at_random = false;
    outcome
}

/// An accepted random nest.
fn accepted_nest(random: &mut Random) -> Model {
    loop {
        let model = nests::nest(random);
        if decode(&model.encode()).is_ok() {
            return model;
        }
    }
}

/// Calls on a file whose number is known.
pub fn at_limit(
    comparison: &mut Comparison,
    random: &mut Random,
    limit: &limits::Limit,
) -> Compared<()> {
    let (name, number, file) = limit;
    let file = file();
    expect_number(comparison, &file, *number, name)
        .and_then(|()| calls_on_file(comparison, random, &file))
        .map_err(|fault| format!("{name}, {fault}"))
}

/// Calls on a random nest that was damaged so.
pub fn damaged(comparison: &mut Comparison, random: &mut Random, damage: &Damage) -> Compared<()> {
    let file = loop {
        let model = accepted_nest(random);
        if let Some(file) = (damage.apply)(random, &model) {
            break file;
        }
    };
    expect_number(comparison, &file, damage.number, damage.name)?;
    calls_on_file(comparison, random, &file)
}

fn damaged_run(
    comparison: &mut Comparison,
    random: &mut Random,
    damage: &RunDamage,
) -> Compared<()> {
    let (model, run) = loop {
        let model = accepted_nest(random);
        let run = runs::fitting(random, &model);
        if let Some(run) = damage.apply(random, &model, &run) {
            break (model, run);
        }
    };
    let position = random.below(3);
    let mut list = comparison.list(&model.encode(), &run);
    let (bag, trace) = (arguments::bag(random), random.bytes(20));
    let rules = arguments::rules_table(random, model.atomics().len());
    let t = random.pick(&[0, runs::open_moment(&run), u64::MAX]);
    let feed = Call::Feed { end: t, feed: feeds::any_bytes(random), trace: random.bytes(20) };
    for call in [Call::Read { position }, Call::Advance { t, bag, trace, rules }, feed] {
        let answer = list.call(&call)?.answer;
        if answer.number() != 10 {
            return Err(format!("{}: {answer:?} instead of 10", damage.name));
        }
    }
    channels::on_any_file(&mut list, random)?;
    list.counts().meet(damage.name);
    Ok(())
}

/// Checks a file that must get a known number.
fn expect_number(
    comparison: &mut Comparison,
    file: &[u8],
    number: u64,
    name: &'static str,
) -> Compared<()> {
    let answer = comparison.check_model(file)?;
    if answer != number {
        return Err(format!("{name}: check_model answers {answer}, not {number}"));
    }
    comparison.counts.meet(name);
    Ok(())
}

fn garbage(comparison: &mut Comparison, random: &mut Random) -> Compared<()> {
    let length = random.index(60);
    let mut file = random.bytes(length);
    // Small counts, so that some of it is read.
    for byte in &mut file {
        *byte = if random.percent(80) { *byte % 3 } else { *byte };
    }
    calls_on_file(comparison, random, &file)
}

fn bytes_changed(comparison: &mut Comparison, random: &mut Random) -> Compared<()> {
    let mut file = accepted_nest(random).encode();
    for _ in 0..random.between(1, 3) {
        let at = random.index(file.len());
        file[at] = match random.below(3) {
            0 => random.next() as u8,
            1 => file[at] ^ (1 << random.below(8)),
            _ => random.pick(&[0, 1, 2, 3, 4, 255]),
        };
    }
    calls_on_file(comparison, random, &file)
}

#[test]
fn fixed_cases_of_every_seed_meet_everything() {
    for seed in 0..40 {
        let counts = Counts::new(names());
        let mut comparison = Comparison::new(Vec::new(), rearrangers(), counts);
        worked::compare(&mut comparison).expect("the worked table");
        for number in 0..fixed() {
            let mut random = Random::for_case(seed, number as u64);
            case(&mut comparison, &mut random, number).expect("a fixed case");
        }
        let faults = comparison.counts.faults_of_all_cases();
        assert_eq!(faults, Vec::<String>::new(), "seed {seed}");
    }
}
