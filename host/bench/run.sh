#!/usr/bin/env bash
# The benchmark: engines against each other in one process, without checks (profile bench-release).
# Where the proved library has been built (./build.sh library) it is measured too, with its ratios.
# Fewer rounds, or a part: host/bench/run.sh --rounds 5 --only nest (feeds: --only feed, several channels: --only channels,
# traces by column: --only columns)
set -eu
cd "$(dirname "$0")/.."
# Functions begin at multiples of 64 bytes, the library's too: the same instructions of a search loop took 5.2 or 9.5 microseconds a step,
# and the steps of timers a tenth more or less, by where they happened to lie.
features=()
library=${PDEVS_LIBRARY_DIR:-../target/staticlib}/libc_interface.a
if [ -f "$library" ]; then
  features=(--features library)
  mkdir -p target/aligned
  objcopy --set-section-alignment '.text.*=64' "$library" target/aligned/libc_interface.a
  export PDEVS_LIBRARY_DIR=$PWD/target/aligned
fi
export RUSTFLAGS="${RUSTFLAGS:-} -C llvm-args=-align-all-functions=6"
exec cargo run --profile bench-release --offline --quiet -p bench "${features[@]}" -- "$@"
