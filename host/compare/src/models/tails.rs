//! Files with each kind of bytes after their couplings, and ranges at the edge of what either reading allows, with
//! the number that each must get.

use super::limits::{largest, Limit};
use reference::builder::{rule, Builder};
use reference::examples::{cue_source, last_rule_decides, repeated_way_out};
use reference::limits::UNBOUNDED;
use reference::records::Rule;

const FIFTH: &[u8] = &[1, 0, 2];

pub const TAILS: [Limit; 49] = [
    ("a fifth section", 0, || after_cue_source(FIFTH)),
    ("a lone root with a fifth section", 0, || followed(&Builder::new(), FIFTH)),
    ("a file of 32,075 bytes", 0, || followed(&largest(), FIFTH)),
    ("a file of 32,073 bytes", 20, || followed(&largest(), &[0])),
    ("a file of 32,074 bytes", 20, || followed(&largest(), &[1, 0])),
    ("a file of 32,076 bytes", 2, || followed(&largest(), &[1, 0, 2, 0])),
    ("a file of 32,076 bytes and no fifth section", 20, || followed(&largest(), &[0, 1, 0, 2])),
    ("fifth section: the byte 0 alone", 20, || after_cue_source(&[0])),
    ("fifth section: the byte 1 alone", 20, || after_cue_source(&[1])),
    ("fifth section: the byte 2 alone", 20, || after_cue_source(&[2])),
    ("fifth section: its count alone", 20, || after_cue_source(&[1, 0])),
    ("fifth section: count 0 alone", 20, || after_cue_source(&[0, 0])),
    ("fifth section: count 0", 20, || after_cue_source(&[0, 0, 2])),
    ("fifth section: count 2", 20, || after_cue_source(&[2, 0, 2])),
    ("fifth section: count 2, two bytes", 20, || after_cue_source(&[2, 0, 2, 2])),
    ("fifth section: count 256", 20, || after_cue_source(&[0, 1, 2])),
    ("fifth section: count 257", 20, || after_cue_source(&[1, 1, 2])),
    ("fifth section: count 65,535", 20, || after_cue_source(&[255, 255, 2])),
    ("fifth section: byte 0", 20, || after_cue_source(&[1, 0, 0])),
    ("fifth section: byte 1", 20, || after_cue_source(&[1, 0, 1])),
    ("fifth section: byte 3", 20, || after_cue_source(&[1, 0, 3])),
    ("fifth section: byte 130", 20, || after_cue_source(&[1, 0, 130])),
    ("fifth section: byte 255", 20, || after_cue_source(&[1, 0, 255])),
    ("fifth section: byte 1, and bytes left over", 20, || after_cue_source(&[1, 0, 1, 0])),
    ("left over: a zero", 2, || after_cue_source(&[1, 0, 2, 0])),
    ("left over: the byte once more", 2, || after_cue_source(&[1, 0, 2, 2])),
    ("left over: the section once more", 2, || after_cue_source(&[1, 0, 2, 1, 0, 2])),
    ("four sections, ends 0 and 0", 0, || with_ends(0, 0, &[])),
    ("four sections, ends 500 and 500", 0, || with_ends(500, 500, &[])),
    ("four sections, ends of no end", 0, || with_ends(UNBOUNDED, UNBOUNDED, &[])),
    ("half-open, ends 0 and 1", 0, || with_ends(0, 1, FIFTH)),
    ("half-open, ends 499 and 500", 0, || with_ends(499, 500, FIFTH)),
    ("half-open, ends 4,294,967,294 and no end", 0, || with_ends(UNBOUNDED - 1, UNBOUNDED, FIFTH)),
    ("half-open, ends 0 and 0", 7, || with_ends(0, 0, FIFTH)),
    ("half-open, ends 500 and 500", 7, || with_ends(500, 500, FIFTH)),
    ("half-open, ends of no end", 7, || with_ends(UNBOUNDED, UNBOUNDED, FIFTH)),
    ("half-open, ends 4,294,967,294 twice", 7, || with_ends(UNBOUNDED - 1, UNBOUNDED - 1, FIFTH)),
    ("half-open, equal ends of the last of 1,024 rules", 7, || {
        let mut model = last_rule_decides(1_023);
        model.rule(Rule { low_elapsed: 3, high_elapsed: 3, ..rule(1, 0, 7, 1) });
        followed(&model, FIFTH)
    }),
    ("equal ends, and another byte", 20, || with_ends(500, 500, &[1, 0, 3])),
    ("equal ends, and bytes left over", 7, || with_ends(500, 500, &[1, 0, 2, 0])),
    ("equal ends, and a bad coupling", 8, || with_bad_coupling(500, 500, FIFTH)),
    ("low end above the high one", 7, || with_ends(501, 500, FIFTH)),
    ("low end above the high one, and another byte", 7, || with_ends(501, 500, &[1, 0, 3])),
    ("low end above the high one, and a bad coupling", 7, || with_bad_coupling(501, 500, FIFTH)),
    ("a bad coupling, and another byte", 8, || with_bad_coupling(0, 500, &[1, 0, 3])),
    ("1,025 routes, and one byte", 20, || followed(&repeated_way_out(25, 41), &[0])),
    ("1,025 routes, half-open", 9, || followed(&repeated_way_out(25, 41), FIFTH)),
    ("1,025 routes, and equal ends", 7, || {
        let mut model = repeated_way_out(25, 41);
        model.rule(Rule { low_elapsed: 3, high_elapsed: 3, ..rule(2, 0, 7, 1) });
        followed(&model, FIFTH)
    }),
    ("1,025 routes, and bytes left over", 2, || followed(&repeated_way_out(25, 41), &[1, 0, 2, 0])),
];

/// The four sections of the cue source, and these bytes.
fn after_cue_source(bytes: &[u8]) -> Vec<u8> {
    followed(&cue_source(0, 1), bytes)
}

/// The four sections of a model, and these bytes.
fn followed(model: &Builder, bytes: &[u8]) -> Vec<u8> {
    [&model.file(), bytes].concat()
}

/// The cue source with a rule more, that has these elapsed ends.
fn ended(low_elapsed: u32, high_elapsed: u32) -> Builder {
    let mut model = cue_source(0, 1);
    model.rule(Rule { low_elapsed, high_elapsed, ..rule(2, 0, 9, 1) });
    model
}

fn with_ends(low: u32, high: u32, bytes: &[u8]) -> Vec<u8> {
    followed(&ended(low, high), bytes)
}

/// The same with a row of the root with itself.
fn with_bad_coupling(low: u32, high: u32, bytes: &[u8]) -> Vec<u8> {
    let mut model = ended(low, high);
    model.couple(0, 0, 0, 0);
    followed(&model, bytes)
}
