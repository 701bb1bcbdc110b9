#!/usr/bin/env bash
# How small a week of traces becomes, as records and by column: host/bench/sizes.sh [FOLDER]
# The files stay in FOLDER where one is named.
set -eu
if [ $# -gt 0 ]; then
  mkdir -p "$1"
  folder=$(cd "$1" && pwd)
else
  folder=$(mktemp -d)
  trap 'rm -rf "$folder"' EXIT
fi
command -v xz >/dev/null || { apt-get update -qq && apt-get install -y -qq xz-utils >/dev/null; }
"$(dirname "$0")/run.sh" --write "$folder"
printf '%-8s %12s %12s\n' '' bytes 'xz -9'
for form in trace columns; do
  xz -9 --keep --force "$folder/week.$form"
  printf '%-8s %12d %12d\n' "$form" "$(stat -c %s "$folder/week.$form")" "$(stat -c %s "$folder/week.$form.xz")"
done
