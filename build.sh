#!/usr/bin/env bash
# Builds, proved, what C and the tests use: `./build.sh library` writes target/staticlib/libc_interface.a, `./build.sh program`
# writes target/bin/print_run. What is proved already is not proved again.
set -eu
cd "$(dirname "$0")"
case ${1:-} in
library)
  (cd crates/c_interface && rt lib)
  mkdir -p target/staticlib
  cp crates/c_interface/out/libc_interface.a target/staticlib/
  ;;
program)
  (cd crates/print_run && rt run </dev/null)
  mkdir -p target/bin
  cp crates/print_run/out/print_run target/bin/
  ;;
*)
  printf 'usage: %s library|program\n' "$0" >&2
  exit 2
  ;;
esac
