//! Boundaries that show in a call's arguments and outcome, whoever made them up.

use crate::call::{Answer, Call};
use crate::counts::Counts;
use crate::runs::open_moment;
use reference::limits::{HIGHEST_OPEN_MOMENT, HIGHEST_TIME};
use reference::model::Model;
use reference::observed::Observed;
use reference::saved_run;

/// The boundaries that `notice` looks for.
pub const NOTICED: [&str; 35] = [
    "start: buffer exactly long enough",
    "start: buffer one byte too short",
    "advance: run exactly long enough",
    "advance: run one byte too short",
    "read: run exactly long enough",
    "read: run one byte too short",
    "read: last position",
    "read: first position past the last",
    "read: position of 2^32 or more",
    "read: nothing is ever due",
    "read: open moment 10^12 + 1",
    "advance: open moment 10^12 + 1",
    "advance: t is 10^12",
    "advance: t is 10^12 + 1",
    "advance: t is the open moment",
    "advance: t one before the open moment",
    "advance: bag of 48 bytes",
    "advance: bag of 51 bytes",
    "advance: bag of a length that 3 does not divide",
    "advance: bag with a port above 3",
    "advance: idle moment",
    "advance: bag given where something is due",
    "advance: empty trace and an instant done",
    "advance: trace exactly full",
    "advance: 15 after instants done",
    "advance: 13 after instants done",
    "advance: 13 in an instant with a bag",
    "advance: model without atomics",
    "advance: instant of 1,024 steps",
    "advance: instant of 1,024 steps with a bag",
    "advance: root bag of 4,096",
    "advance: atomic bag of 16,384 and a rule for it",
    "advance: elapsed time of 2^32 or more",
    "advance: elapsed time of 2^32 or more and a rule for it",
    "advance: transition with 8 ancestors",
];

/// Counts what a call on an accepted model met.
pub fn notice(
    counts: &mut Counts,
    model: Option<&Model>,
    call: &Call,
    answer: &Answer,
    run_before: &[u8],
    observed: &Observed,
) {
    let Some(model) = model else {
        return;
    };
    let atomics = model.atomics().len();
    let length = saved_run::length(atomics);
    let exact = run_before.len() == length;
    let short = run_before.len() + 1 == length;
    let number = answer.number();
    let mut meet = |condition: bool, name: &'static str| {
        if condition {
            counts.meet(name);
        }
    };
    match (call, answer) {
        (Call::Start, _) => {
            meet(exact && number == 0, "start: buffer exactly long enough");
            meet(short && number == 15, "start: buffer one byte too short");
        }
        (Call::Read { position }, Answer::Reading(reading)) => {
            let read = number == 0;
            meet(exact && read, "read: run exactly long enough");
            meet(short && number == 10, "read: run one byte too short");
            meet(read && *position + 1 == atomics as u64, "read: last position");
            let first_past = number == 16 && *position == atomics as u64;
            meet(first_past, "read: first position past the last");
            meet(number == 16 && *position >= 1 << 32, "read: position of 2^32 or more");
            meet(read && reading.next_due == u64::MAX, "read: nothing is ever due");
            let highest = open_moment(run_before) == HIGHEST_OPEN_MOMENT;
            meet(read && highest, "read: open moment 10^12 + 1");
        }
        (Call::Advance { t, bag, trace, .. }, Answer::Advanced(advanced)) => {
            let open = open_moment(run_before);
            let done = number == 0;
            meet(exact && done, "advance: run exactly long enough");
            meet(short && number == 10, "advance: run one byte too short");
            let highest = open == HIGHEST_OPEN_MOMENT && number == 11;
            meet(highest, "advance: open moment 10^12 + 1");
            meet(done && *t == HIGHEST_TIME, "advance: t is 10^12");
            meet(number == 11 && *t == HIGHEST_TIME + 1, "advance: t is 10^12 + 1");
            meet(done && *t == open, "advance: t is the open moment");
            meet(
                number == 11 && t.checked_add(1) == Some(open),
                "advance: t one before the open moment",
            );
            meet(done && bag.len() == 48, "advance: bag of 48 bytes");
            meet(number == 12 && bag.len() == 51, "advance: bag of 51 bytes");
            let uneven = number == 12 && !bag.len().is_multiple_of(3);
            meet(uneven, "advance: bag of a length that 3 does not divide");
            let only_port = number == 12 && !uneven && bag.len() <= 48;
            meet(only_port, "advance: bag with a port above 3");
            meet(done && advanced.instants == 0, "advance: idle moment");
            let both = done && !bag.is_empty() && observed.given_where_due > 0;
            meet(both, "advance: bag given where something is due");
            let empty = trace.is_empty() && advanced.instants > 0;
            meet(empty, "advance: empty trace and an instant done");
            let full = done && !trace.is_empty() && advanced.trace_bytes == trace.len() as u64;
            meet(full, "advance: trace exactly full");
            meet(number == 15 && advanced.instants > 0, "advance: 15 after instants done");
            meet(number == 13 && advanced.instants > 0, "advance: 13 after instants done");
            let endless = observed.endless_instants_with_bag > 0;
            meet(endless, "advance: 13 in an instant with a bag");
            meet(done && atomics == 0, "advance: model without atomics");
            meet(observed.most_steps == 1_024, "advance: instant of 1,024 steps");
            let with_bag = observed.most_steps_with_bag == 1_024;
            meet(with_bag, "advance: instant of 1,024 steps with a bag");
            let root_bag = done && observed.largest_root_bag == 4_096;
            meet(root_bag, "advance: root bag of 4,096");
            let largest = observed.largest_decided_bag == 16_384;
            meet(largest, "advance: atomic bag of 16,384 and a rule for it");
            let long = observed.longest_elapsed >= 1 << 32;
            meet(long, "advance: elapsed time of 2^32 or more");
            let long = observed.longest_decided_elapsed >= 1 << 32;
            meet(long, "advance: elapsed time of 2^32 or more and a rule for it");
            let deep = observed.deepest_transition == 8;
            meet(deep, "advance: transition with 8 ancestors");
        }
        _ => {}
    }
}
