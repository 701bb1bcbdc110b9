#!/usr/bin/env bash
# Proves every crate, tries the edits that must fail, checks the layout, runs the programs (rt ci), tries wrong definitions against the theorems, runs
# the examples, then the host tests. It says on standard error where it is.
# The last line is 'N passed, M failed'; the exit status is 0 only where nothing failed.
set -u
cd "$(dirname "$0")" || exit 1
. host/progress.sh

passed=0
failed=0
part=0
parts=5
title=
say() { printf '%s\n' "$*"; }

# add TITLE PASSED FAILED
add() {
  say "== $1: $2 passed, $3 failed"
  passed=$((passed + $2))
  failed=$((failed + $3))
}

# begin NAME: the next part
begin() {
  part=$((part + 1))
  title="part $part of $parts: $1"
  say "-- $title, $(minutes)"
}

# one NAME COMMAND..: a part that counts as one test
one() {
  local name=$1
  shift
  begin "$name"
  "$@" 2>&1 | follow "$title"
  if [ "${PIPESTATUS[0]}" -eq 0 ]; then add "$name" 1 0; else add "$name" 0 1; fi
}

# counted NAME CRATES EDITS COMMAND..: a part whose own last line is 'N passed, M failed', with so many crates and edits to try. An edit
# that could not be tried (', N bad' on the line 'rt: ok') fails it too.
counted() {
  local name=$1 crates=$2 edits=$3 log status last bad unfit
  shift 3
  begin "$name"
  log=$(mktemp)
  "$@" 2>&1 | tee "$log" | follow "$title" "$crates" "$edits"
  status=${PIPESTATUS[0]}
  last=$(grep -E '^[0-9]+ passed, [0-9]+ failed$' "$log" | tail -n 1)
  unfit=$(grep -cE '^rt: ok.*, [0-9]+ bad' "$log")
  rm -f "$log"
  if [ -z "$last" ]; then add "$name" 0 1; return; fi
  set -- $last
  bad=$(($3 + unfit))
  if [ "$status" -ne 0 ] && [ "$bad" -eq 0 ]; then bad=1; fi
  add "$name" "$1" "$bad"
}

# need COMMAND PACKAGE..: installed from Debian where it is missing
need() {
  command -v "$1" >/dev/null || { apt-get update -qq && apt-get install -y -qq "${@:2}" >/dev/null; } || add "$1" 0 1
}

# The second implementation's own tests.
host_tests() {
  local log status good bad
  begin 'host tests'
  log=$(mktemp)
  (cd host && cargo test --release --offline --quiet) 2>&1 | tee "$log" | follow "$title"
  status=${PIPESTATUS[0]}
  good=$(grep -oE '[0-9]+ passed;' "$log" | awk '{n += $1} END {print n + 0}')
  bad=$(grep -oE '[0-9]+ failed;' "$log" | awk '{n += $1} END {print n + 0}')
  rm -f "$log"
  if [ "$status" -ne 0 ] && [ "$bad" -eq 0 ]; then bad=1; fi
  if [ "$good" -eq 0 ]; then bad=$((bad + 1)); fi
  add 'host tests' "$good" "$bad"
}

# how_many FILE..: so many
how_many() { say "$#"; }

need python3 python3
need cc gcc libc6-dev
need c++ g++
need cargo cargo rustc
counted proofs "$(grep -c : crates.txt)" "$(how_many crates/*/must-fail/*.edit)" rt ci
counted 'wrong definitions' 0 "$(how_many must-fail-theory/*.edit)" must-fail-theory/run.py
one examples examples/check.sh
host_tests
one 'host comparison' host/compare.sh
say "$passed passed, $failed failed"
[ "$failed" -eq 0 ]
