//! The two engines against the reference: every answer and every byte of every lent buffer, on the
//! models and calls of the comparison's generators, each model as it is and flat.

use crate::arguments::{self, Known};
use crate::call::Call;
use crate::channel_arguments;
use crate::engine::{Engine, Functions, FLAT_ROWS, NEST, PULLED};
use crate::feed_arguments::Plan;
use crate::lent::Lent;
use crate::models::{chains, damage, limits, nests};
use crate::random::Random;
use crate::runs::{self, RUN_DAMAGES};
use crate::workloads::{self, Workload};
use reference::advance;
use reference::decode::decode;
use reference::flatten::flat_form;
use reference::model::Model;
use reference::nest::DeadWays;
use reference::observed::Observed;
use reference::routes;

const YARDSTICKS: [(&str, Functions); 2] = [("pulled", PULLED), ("flat rows", FLAT_ROWS)];

/// A list of calls on one model over one run buffer, of which each engine has its own.
struct CallList {
    file: Vec<u8>,
    flat: Option<Vec<u8>>,
    run: Lent,
    runs: [Lent; 4],
}

impl CallList {
    fn new(file: &[u8], first_run: &[u8]) -> CallList {
        let flat = decode(file).ok().map(|model| flat_form(&model).encode());
        let runs = [(); 4].map(|()| Lent::new(first_run));
        CallList { file: file.to_vec(), flat, run: Lent::new(first_run), runs }
    }

    /// Makes a call on the reference and on both engines with both forms. Answers its number.
    fn call(&mut self, call: &Call) -> u64 {
        let mut beside = call.lent_beside();
        let answer = call.make(&NEST, &self.file, &mut self.run, &mut beside);
        let forms = [Some(&self.file), self.flat.as_ref()].into_iter().flatten();
        let subjects = forms.flat_map(|file| YARDSTICKS.map(|yardstick| (file, yardstick)));
        for ((file, (name, engine)), run) in subjects.zip(&mut self.runs) {
            let mut lent = call.lent_beside();
            assert_eq!(call.make(&engine, file, run, &mut lent), answer, "{name}: {call}");
            for (what, lent, expected) in [
                ("run", &*run, &self.run),
                ("trace", &lent.trace, &beside.trace),
                ("table of rules", &lent.rules, &beside.rules),
            ] {
                assert_eq!(lent.content(), expected.content(), "{name}: the {what} after {call}");
                assert!(lent.margins_stay(), "{name}: bytes outside the {what} in {call}");
            }
        }
        answer.number()
    }
}

fn check_model(file: &[u8]) -> u64 {
    let number = reference::check_model(file);
    for (name, engine) in YARDSTICKS {
        assert_eq!(engine.check_model(file), number, "{name}");
    }
    number
}

/// A random list of calls on an accepted model.
fn calls_on(random: &mut Random, model: &Model) {
    let file = model.encode();
    let known = Known::new(model);
    let mut list = CallList::new(&file, &runs::first_bytes(random, model));
    let mut call = Call::Start;
    let mut endless_calls = 0;
    for _ in 0..random.between(3, 16) {
        let number = list.call(&call);
        endless_calls += usize::from(number == 13);
        if endless_calls > 1 {
            return;
        }
        call = match number {
            10 => Call::Start,
            _ if random.percent(20) => feed_call(random, &file, &known, list.run.content()),
            _ => arguments::next_call(random, &file, model, &known, list.run.content()),
        };
    }
}

/// A feed as it is planned, with a byte changed, cut off, or with another end that is refused.
fn feed_call(random: &mut Random, file: &[u8], known: &Known, run: &[u8]) -> Call {
    let plan = Plan::new(random, known, file, run);
    let mut call = plan.call(random, file, run);
    if let Call::Feed { end, feed, .. } = &mut call {
        let at = random.index(feed.len());
        match random.below(10) {
            0 => feed[at] = random.pick(&[0, 1, 4, 16, 17, 255]),
            1 => feed.truncate(at),
            2 => feed.push(0),
            3 => *end = random.pick(&[0, u64::MAX, (*end).saturating_sub(1)]),
            _ => {}
        }
    }
    call
}

/// Calls on a file that may be refused.
fn calls_on_file(random: &mut Random, file: &[u8]) {
    let number = check_model(file);
    if let Ok(model) = decode(file) {
        return calls_on(random, &model);
    }
    let mut list = CallList::new(file, &random.bytes(100));
    let (trace, rules) = (random.bytes(50), random.bytes(9));
    let call = Call::Advance { t: 7, bag: Vec::new(), trace, rules };
    assert_eq!(list.call(&call), number);
    let call = Call::Feed { end: 7, feed: vec![0, 0], trace: random.bytes(50) };
    assert_eq!(list.call(&call), number);
}

fn accepted_nest(random: &mut Random) -> Model {
    loop {
        let model = nests::nest(random);
        if reference::check_model(&model.encode()) == 0 {
            return model;
        }
    }
}

/// Channels of a random model, as the comparison draws them, and of one that is soon out of steps.
fn channels_on(random: &mut Random, model: &Model) {
    let known = Known::new(model);
    let (count, span) = (channel_arguments::count(random), known.span(random));
    let runs = channel_arguments::first_runs(random, model, span, count);
    let mut list = CallList::new(&model.encode(), &runs);
    for _ in 0..3 {
        let call = channel_arguments::call(random, list.run.content(), count, span);
        list.call(&Call::Channels(call));
    }
    if random.percent(15) {
        let (file, runs, call) = channel_arguments::busy(random);
        CallList::new(&file, &runs).call(&Call::Channels(call));
    }
}

#[test]
fn random_channels() {
    for case in 0..200 {
        let mut random = Random::for_case(15, case);
        let model = accepted_nest(&mut random);
        channels_on(&mut random, &model);
    }
}

#[test]
fn random_models() {
    for case in 0..600 {
        let mut random = Random::for_case(11, case);
        let model =
            if random.percent(70) { nests::nest(&mut random) } else { chains::chain(&mut random) };
        calls_on_file(&mut random, &model.encode());
    }
}

#[test]
fn models_at_limits() {
    for (case, (name, number, file)) in (0..).zip(limits::all()) {
        let mut random = Random::for_case(12, case);
        assert_eq!(check_model(&file()), *number, "{name}");
        calls_on_file(&mut random, &file());
    }
}

#[test]
fn damaged_models() {
    for case in 0..5 {
        let mut random = Random::for_case(13, case);
        for damage in damage::all() {
            let file = std::iter::repeat_with(|| accepted_nest(&mut random))
                .find_map(|model| (damage.apply)(&mut Random::new(case), &model))
                .expect("some nest can be damaged so");
            assert_eq!(check_model(&file), damage.number, "{}", damage.name);
            calls_on_file(&mut random, &file);
        }
    }
}

#[test]
fn damaged_runs() {
    for case in 0..20 {
        let mut random = Random::for_case(14, case);
        for damage in &RUN_DAMAGES {
            let model = accepted_nest(&mut random);
            let run = runs::fitting(&mut random, &model);
            if let Some(run) = damage.apply(&mut random, &model, &run) {
                let mut list = CallList::new(&model.encode(), &run);
                let t = runs::open_moment(&run);
                let (trace, rules) = (random.bytes(20), random.bytes(150));
                let call = Call::Advance { t, bag: Vec::new(), trace, rules };
                assert_eq!(list.call(&call), 10, "{}", damage.name);
                let call = Call::Feed { end: t, feed: vec![7], trace: Vec::new() };
                assert_eq!(list.call(&call), 10, "{}", damage.name);
            }
        }
    }
}

fn all_workloads() -> Vec<Workload> {
    let series = workloads::growth::all().into_iter().flat_map(|series| series.points);
    let growing = series.map(|(_, workload)| workload);
    let called = workloads::steps().into_iter().chain(workloads::short_calls());
    called.chain(workloads::feeds::all()).chain(growing).collect()
}

#[test]
fn workloads_run_without_refusal() {
    for workload in all_workloads() {
        assert_eq!(check_model(&workload.model), 0, "{}", workload.name);
        let mut list = CallList::new(&workload.model, &vec![0; 600]);
        list.call(&Call::Start);
        if let Some(feed) = workload.feed.clone() {
            let call = Call::Feed { end: workload.end(), feed, trace: vec![1; 250_000] };
            assert_eq!(list.call(&call), 0, "{}", workload.name);
            continue;
        }
        for call in &workload.calls {
            let (trace, rules) = (vec![1; 250_000], vec![1; workload.rules_bytes]);
            let call = Call::Advance { t: call.t, bag: call.bag.clone(), trace, rules };
            assert_eq!(list.call(&call), 0, "{}", workload.name);
        }
    }
}

fn workload(name: &str) -> Workload {
    all_workloads().into_iter().find(|workload| workload.name == name).expect("a workload")
}

/// The nests and the maximal model stand at the limits.
#[test]
fn workloads_are_as_large_as_they_say() {
    let sizes = |name: &str| {
        let model = decode(&workload(name).model).expect("an accepted model");
        let records = [model.components.len(), model.phases.len(), model.rules.len()];
        (records, model.couplings.len(), routes::count(&model))
    };
    assert_eq!(sizes("nest LI"), ([64, 111, 55], 70, 56));
    assert_eq!(sizes("nest HI"), ([64, 111, 55], 118, 104));
    assert_eq!(sizes("nest HO"), ([64, 111, 55], 179, 158));
    assert_eq!(sizes("nest LI, stray cues"), ([64, 126, 55], 70, 56));
    assert_eq!(sizes("each of 32 to each"), ([33, 64, 64], 1_024, 1_024));
    assert_eq!(sizes("1,024 rules, scattered"), ([34, 136, 1_024], 33, 33));
    assert_eq!(sizes("1,024 rules, half-open"), sizes("1,024 rules, grouped"));
    let files =
        ["half-open", "grouped"].map(|kind| workload(&format!("1,024 rules, {kind}")).model);
    assert_eq!(files[0], [&files[1][..], &[1, 0, 2]].concat());
    assert_eq!(sizes("64 messages, 32 rules"), ([3, 3, 32], 16, 16));
    assert_eq!(sizes("4,096 messages, 32 rules"), ([3, 3, 32], 1_024, 1_024));
    assert_eq!(sizes("16,384 messages, 32 rules"), ([2, 2, 32], 1_024, 1_024));
    assert_eq!(sizes("maximal, idle"), ([64, 512, 1_024], 1_024, 1_010));
}

/// What the reference meets in the calls of a workload.
fn observed(workload: &Workload) -> Observed {
    let mut run = vec![0; 600];
    reference::start(&workload.model, &mut run);
    let mut observed = Observed::default();
    for call in &workload.calls {
        let (model, bag, dropped) = (&workload.model, &call.bag, DeadWays::Dropped);
        let lent = advance::Lent { trace: &mut [0; 1_000], rules: &mut [] };
        advance::advance(model, &mut run, call.t, bag, lent, dropped, &mut observed);
    }
    observed
}

/// Each of 1,000 bags is an instant of one step, and nothing else is due. In a chain of 15 stations each cue
/// has a step in the splitter, the hold and the buffer of each, and the last has only begun.
#[test]
fn feeds_are_as_long_as_they_say() {
    for (name, steps) in [
        ("feed, small", 1_000),
        ("feed, maximal", 1_000),
        ("feed, 15 stations", 999 * (1 + 15 * 3) + 2),
    ] {
        let workload = workload(name);
        let mut run = vec![0; 600];
        reference::start(&workload.model, &mut run);
        let (end, feed) = (workload.end(), workload.feed.expect("a feed"));
        let trace = &mut vec![0; 250_000];
        let fed = reference::advance_feed(&workload.model, &mut run, end, &feed, trace);
        assert_eq!((fed.number, fed.bags, fed.steps), (0, 1_000, steps), "{name}");
    }
}

/// In each of 40 periods of 16 moments, 55 atomics get one cue, one stray when they are due, and 14
/// more strays.
#[test]
fn stray_cues_are_strays() {
    let observed = observed(&workload("nest LI, stray cues"));
    let by_ancestors = [0, 9, 9, 9, 9, 9, 9, 1];
    assert_eq!(observed.strays, by_ancestors.map(|atomics| 40 * 14 * atomics));
    assert_eq!(observed.external_by_rule, 40 * 55);
    assert_eq!(observed.confluent_internal_first_without_rule, 40 * 55);
}

/// In each step the last of 32 rules decides for a bag of so many messages. The others want no more than the
/// bag has, so that an engine has to count.
#[test]
fn counted_bags_are_as_large_as_they_say() {
    for (name, messages, steps) in [
        ("64 messages, 32 rules", 64, 200),
        ("4,096 messages, 32 rules", 4_096, 20),
        ("16,384 messages, 32 rules", 16_384, 4),
    ] {
        let workload = workload(name);
        let observed = observed(&workload);
        let external = (observed.external_by_rule, observed.external_without_rule);
        assert_eq!(external, (steps, 0), "{name}");
        assert_eq!(observed.largest_decided_bag, messages, "{name}");
        assert_eq!(observed.last_instant.highest_position, 31, "{name}");
        let rules = decode(&workload.model).expect("an accepted model").rules;
        assert!(rules.iter().all(|rule| usize::from(rule.least_count) <= messages), "{name}");
    }
}
