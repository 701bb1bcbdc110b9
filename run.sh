#!/usr/bin/env bash
# Builds the printing program, proved, and prints the worked run: the two-phase cue source to moment 30. What is proved already
# is not proved again; the first time it says on standard error where it is.
# Another run: ./run.sh FILE, where FILE is an end moment (8 bytes) and a model file, as examples/*.bin are.
set -eu
here=$(cd "$(dirname "$0")" && pwd)
input=$(realpath "${1:-$here/examples/cue_source.bin}")
[ -r "$input" ] || { printf 'run.sh: cannot read %s\n' "$input" >&2; exit 1; }
cd "$here"
. host/progress.sh
log=$(mktemp)
trap 'rm -f "$log"' EXIT
./build.sh program 2>&1 | tee "$log" | follow 'proving' "$(needed_crates print_run)" >/dev/null
if [ "${PIPESTATUS[0]}" -ne 0 ]; then
  cat "$log" >&2
  exit 1
fi
target/bin/print_run <"$input"
