#!/usr/bin/env bash
# The comparison of the gate: every call's answers and buffers against the second implementation, over seeded models, lists of calls,
# feeds and traces.
# The proved library is built first where it is missing: a run without it would compare the second implementation with itself alone.
# Other runs: host/compare.sh 1000000 7 (a number of calls on models, a seed); a long run says each minute on standard error where it is.
# With less than 30,000 calls a run may have too few random models to meet everything, and then fails.
set -eu
cd "$(dirname "$0")"
calls=${1:-100000}
seed=${2:-1}
[ -f ../target/staticlib/libc_interface.a ] || ../build.sh library
exec cargo run --release --offline --quiet -p compare --features library -- --calls "$calls" --seed "$seed"
