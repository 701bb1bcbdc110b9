//! Cases made for one boundary of a step, an instant or the routes, with the outcome they must have.

pub mod bags;
mod edges;
pub mod lit_rules;
pub mod ranges;
pub mod root_bags;
mod steps;
pub mod strays;
mod ways;

use crate::arguments::rules_table;
use crate::call::{Answer, Call};
use crate::comparison::{Compared, Comparison};
use crate::random::Random;
use reference::builder::Builder;
use reference::limits::COUPLINGS;
use reference::saved_run;
use reference::Advanced;

pub type Special = fn(&mut Comparison, &mut Random) -> Compared<()>;

pub const CASES: [Special; 26] = [
    bags::largest_atomic_bags,
    bags::atomic_bag_through_levels,
    root_bags::largest,
    root_bags::through_levels,
    root_bags::bursts,
    edges::lengths,
    edges::times_and_positions,
    edges::given_bags,
    lit_rules::on_each_level,
    lit_rules::positions,
    ranges::on_each_level,
    steps::zero_stay_steps,
    steps::long_elapsed,
    steps::highest_time,
    steps::endless_with_output,
    steps::endless_after_instants,
    steps::only_zero_stays,
    strays::on_each_level,
    strays::steps_of_strays_alone,
    ways::divided_routes,
    ways::factors_of_the_limit,
    ways::ways_from_nothing,
    root_bags::one_after_another,
    root_bags::of_many_atomics,
    root_bags::beside_given_bags,
    root_bags::in_an_endless_instant,
];

/// The names of the boundaries that the cases count.
pub fn names() -> impl Iterator<Item = &'static str> {
    let rows = lit_rules::names().chain(ranges::names()).chain(strays::names());
    let bags = bags::NAMES.into_iter().chain(root_bags::NAMES);
    bags.chain(steps::NAMES).chain(rows).chain(ways::NAMES)
}

/// Starts a model and advances it once, expecting an answer.
fn expect(
    comparison: &mut Comparison,
    random: &mut Random,
    model: &Builder,
    call: (u64, Vec<u8>, usize),
    expected: Advanced,
) -> Compared<Vec<u8>> {
    let (t, bag, trace_length) = call;
    let atomics = model.model().atomics().len();
    let length = saved_run::length(atomics);
    let beyond = random.index(4);
    let mut list = comparison.list(&model.file(), &random.bytes(length + beyond));
    list.call(&Call::Start)?;
    let trace = random.bytes(trace_length);
    let rules = rules_table(random, atomics);
    let answer = list.call(&Call::Advance { t, bag, trace, rules })?.answer;
    if answer != Answer::Advanced(expected) {
        return Err(format!("{answer:?} instead of {expected:?} at {t}"));
    }
    Ok(list.run().to_vec())
}

fn success(instants: u64, steps: u64, trace_bytes: u64) -> Advanced {
    Advanced { number: 0, instants, steps, trace_bytes }
}

/// How often each link of a way is repeated, so that the ways are the product of the factors: each
/// factor is put on a link, none on the first `single` ones. Drawn again where it takes more couplings
/// than a file may have, as it does where all the factors meet on one link.
fn spread(random: &mut Random, factors: &[usize], links: usize, single: usize) -> Vec<usize> {
    loop {
        let mut times = vec![1; links];
        for factor in factors {
            times[single + random.index(links - single)] *= factor;
        }
        if times.iter().sum::<usize>() <= COUPLINGS {
            return times;
        }
    }
}

#[test]
fn spread_factors_fit_a_file() {
    for seed in 0..5_000 {
        let times = spread(&mut Random::new(seed), &[5, 5, 41], 15, 1);
        assert_eq!(times.iter().product::<usize>(), 1_025);
        assert!(times[0] == 1 && times.iter().sum::<usize>() <= COUPLINGS, "{times:?}");
    }
}
