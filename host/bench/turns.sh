#!/usr/bin/env bash
# The library of this checkout against that of an earlier one, in turn: host/bench/turns.sh BEFORE [LAYOUTS] [words for the benchmark]
# BEFORE is a folder with the project at another commit. Both libraries must be built (./build.sh library).
# A loop takes up to a tenth more or less by where it lies, and any change moves what lies behind it. So each library is linked in several
# layouts, by default twelve: in each its functions begin at other multiples of 16 bytes.
set -eu
now=$(cd "$(dirname "$0")/../.." && pwd)
before=$(cd "$1" && pwd)
layouts=${2:-12}
shift $(($# < 2 ? $# : 2))
work=$(mktemp -d)
trap 'rm -rf "$work"' EXIT

# build NAME TREE: its benchmark in each layout, as NAME-1, NAME-2, ..
build() {
  mkdir "$work/$1"
  (cd "$work/$1" && ar x "$2/target/staticlib/libc_interface.a")
  for layout in $(seq "$layouts"); do
    local placed=$work/$1-$layout.lib
    mkdir "$placed"
    python3 "$now/host/bench/turns.py" place "$work/$1/c_interface.o" "$layout" >"$work/script"
    ld -r -T "$work/script" "$work/$1/c_interface.o" -o "$placed/c_interface.o"
    objcopy --set-section-alignment .text=64 "$placed/c_interface.o"
    ar rcs "$placed/libc_interface.a" "$placed/c_interface.o"
    (cd "$2/host" && PDEVS_LIBRARY_DIR=$placed RUSTFLAGS="-C llvm-args=-align-all-functions=6" \
      cargo build --profile bench-release --offline --quiet -p bench --features library)
    cp "$2/host/target/bench-release/bench" "$work/$1-$layout"
  done
}

build before "$before"
build now "$now"
for layout in $(seq "$layouts"); do
  for name in before now; do
    "$work/$name-$layout" "$@" >"$work/$name-$layout.txt"
  done
done
python3 "$now/host/bench/turns.py" rows "$work"
