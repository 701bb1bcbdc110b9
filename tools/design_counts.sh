#!/usr/bin/env bash
# Counts the places of docs/DESIGN-PASS.md in the sources of a commit, or of the working tree where none is given.
# Usage: tools/design_counts.sh [COMMIT]
set -u
cd "$(dirname "$0")/.." || exit 1
commit=${1:-}

# lines PATTERN: how many lines of src/ match
lines() { git grep -hE "$1" $commit -- 'crates/*/src/*.rt' | wc -l; }

# places PATTERN: how many times it stands in src/
places() { git grep -hoE "$1" $commit -- 'crates/*/src/*.rt' | wc -l; }

# facts: each fact of a `requires` of one line, and in how many it stands
facts() {
  git grep -hE '^ *requires \{ .* \}$' $commit -- 'crates/*/src/*.rt' | sed -E 's/^ *requires \{ (.*) \}$/\1/' |
    sed 's/ × /\n/g' | sed -E 's/^\((.*)\)$/\1/' | sort | uniq -c
}

row() { printf '%6d  %s\n' "$2" "$1"; }

row '1 enums of the shape of Option or Result' "$(lines '^(pub )?enum (ComponentRead|PhaseRead|RuleRead|CouplingRead|SectionRead|FurtherRead|Checked|FeedChecked|Found|Due|Verdict) ')"
row '1 all enums' "$(lines '^(pub )?enum ')"
row '1 flags with a value beside them' "$(lines '^    pub (some: bool|verdict: )')"
row '1 functions that answer a number for a refusal' "$(lines 'fn (refusal|head_number|hindrance|check_call|check_turn|check_model|[a-z_]+_refusal)\(.*-> u(16|64)$')"
row '1 numbers of refusals as constants' "$(lines '^pub const (MODEL_CUT|MODEL_LEFT_OVER|COUNT_LIMIT|BAD_[A-Z_]+|PHASE_SUM|TOO_MANY_ROUTES|RUN_DOES_NOT_FIT|STILL_DUE|BUFFER_TOO_SHORT|NOT_A_TRACE|NOT_COLUMNS|OUT_OF_STEPS):')"
row '1 answers tested against 0 or taken apart by hand' "$(lines 'number != 0|number == 0|let (ComponentRead|PhaseRead|RuleRead|CouplingRead|SectionRead|FurtherRead|Checked|Found|Due)::')"
row '1 kinds and orders as numbers' "$(lines '(kind|order|KINDS_AT, c\)|ORDERS_AT, c\)) (==|<=) [01]')"
row '1 answers packed into one number' "$(lines 'fn (told|phase_told|rule_told)\(')"
row '2 twins of one size' "$(lines 'fn [a-z_]+_(few|many)\(')"
row '2 conversions that differ in a type' "$(lines 'pub fn (u8|u16|u32|usize|bool)_to_[a-z0-9]+\(')"
row '2 readers of a record that differ in a type' "$(lines 'pub fn (component|phase|rule|coupling)_(count|in|at)\(')"
row '2 loops in both directions' "$(lines 'fn (spread|ways)_(up|down)\(')"
row '2 bodies that stay two for speed' "$(lines 'fn (turn_from|advance_from|rise_stopping|rise_unbroken)\(')"
row '2 numbers in bytes by width' "$(lines 'fn u(16|32|64)_(at|within)\(')"
row '3 loops by while or loop' "$(lines '^ *(while |loop |let [a-z]+ = loop )')"
row '3 loops by for' "$(lines '^ *for ')"
row '4 calls of a conversion by hand' "$(places '\b(widen::)?(u8|u16|u32|usize|bool)_to_(u8|u16|u32|u64|usize)\(')"
row '4 structs of zeros by hand' "$(lines 'fn refused\(|^ +(kind|advance|component|source): 0,')"
row '4 printing by hand' "$(lines 'fn put_(byte|decimal|field|text|message|messages|record|trace|end|refused|last)\(out')"
row '4 order by hand' "$(lines 'fn (is_before|pair_above)\(')"
row '5 contracts that require a fact which three or more require' "$(facts | awk '$1 >= 3 {n += $1} END {print n + 0}')"
row '5 such facts' "$(facts | awk '$1 >= 3' | wc -l)"
row '5 functions of a model as phases, rules and tables' "$(git grep -hA3 -E '^    phases: &\[u8\],$|fn [a-z_]+\(phases: &\[u8\], rules' $commit -- 'crates/*/src/*.rt' | grep -cE '^    rules: &\[u8\],$')"
row '5 functions of a file, its counts and tables' "$(git grep -hA2 -E '^    file: &\[u8\],$' $commit -- 'crates/*/src/*.rt' | grep -cE '^    (n: Counts|accepted: Accepted),$')"
row '6 a buffer and how much of it is used' "$(lines '(buf|out): &mut \[(u8|u32)\], (at|end): usize|^    (end|at): usize,$')"
row '6 parallel arrays' "$(lines '(parents|phase_counts|depths): &(mut )?\[u8; MAX_COMPONENTS\]')"
row '7 switches on what to read' "$(lines 'which: Field|(root|sources|output): bool')"
