#!/usr/bin/env bash
# Runs the proved programs and the C library on the example files and compares what they write with what is kept here. The
# programs are built first, so that none of an older source is tried. The exit status is 0 only where everything agreed.
set -u
here=$(cd "$(dirname "$0")" && pwd)
top=$(dirname "$here")
made=$(mktemp -d)
trap 'rm -rf "$made"' EXIT
failed=0

cd "$top" || exit 1
./build.sh program >"$made/build.log" 2>&1 || { cat "$made/build.log"; exit 1; }

# agree NAME FILE FILE
agree() {
  if cmp -s "$2" "$3"; then
    echo "$1: ok"
  else
    echo "$1: DIFFERS"
    diff "$2" "$3" | head -n 10
    failed=1
  fi
}

# The kept files are those that their source makes.
python3 "$here/make.py" "$made" || failed=1
for kept in "$here"/*.bin "$here"/*.model "$here"/*.feed; do
  agree "make.py $(basename "$kept")" "$kept" "$made/$(basename "$kept")"
done

# The printing program on each input.
for input in "$here"/*.bin; do
  name=$(basename "$input" .bin)
  "$top/target/bin/print_run" <"$input" >"$made/$name.out"
  agree "print_run $name" "$here/$name.txt" "$made/$name.out"
done

# The C boundary.
./build.sh library >"$made/build.log" 2>&1 || { cat "$made/build.log"; exit 1; }

# What the library asks of the program that it is linked into.
nm -u "$top/target/staticlib/libc_interface.a" | sed -n 's/^ *U //p' | sort -u >"$made/asked"
printf 'memcpy\nmemset\n' >"$made/meant"
agree 'names that the library asks for' "$made/meant" "$made/asked"

# build NAME SOURCE..: a C program over the library
build() {
  cc -std=c99 -Wall -Wextra -Werror -pedantic -O2 -I"$top/include" "${@:2}" "$top/target/staticlib/libc_interface.a" \
    -lpthread -o "$made/$1" || failed=1
}
# build_as_cpp NAME SOURCE..: the same as C++
build_as_cpp() {
  c++ -std=c++11 -Wall -Wextra -Werror -pedantic -O2 -I"$top/include" -x c++ "${@:2}" -x none \
    "$top/target/staticlib/libc_interface.a" -lpthread -o "$made/$1" || failed=1
}
# ran NAME COMMAND..: a program that says by its status whether all was well
ran() {
  if "${@:2}"; then
    echo "$1: ok"
  else
    echo "$1: FAILED"
    failed=1
  fi
}

# The header, in two files of one program.
printf '#include "pdevs.h"\n' >"$made/other.c"
build header "$here/header.c" "$made/other.c"
ran 'header as C' "$made/header"
build_as_cpp header_as_cpp "$here/header.c" "$made/other.c"
ran 'header as C++' "$made/header_as_cpp"

# The inserter: cues that are all taken, cues for which the hold has no rule, cues where two rules meet, a trace that is full again
# and again, and refusals.
build inserter "$here/inserter.c"
# insert NAME STATUS MODEL CUES [OPTION]
insert() {
  "$made/inserter" "${@:5}" "$3" "$here/$4.cues" >"$made/$1.out" 2>&1
  local status=$?
  agree "inserter $1" "$here/$1.inserted" "$made/$1.out"
  if [ "$status" -ne "$2" ]; then
    echo "inserter $1: status $status"
    failed=1
  fi
}
# model NAME: the model file of an input of the printing program
model() { tail -c +9 "$here/$1.bin" >"$made/$1.model"; }
model busy
model jam
model bad_rule
model nested
insert captions 0 "$here/captions.model" captions
insert stray 0 "$here/captions.model" stray
insert meeting 0 "$here/meeting.model" meeting
insert meeting-half-open 0 "$here/meeting-half-open.model" meeting
insert busy 0 "$made/busy.model" busy
insert backwards 1 "$here/captions.model" backwards
insert crowd 1 "$here/captions.model" crowd
insert bad_rule 1 "$made/bad_rule.model" captions
insert jam 1 "$made/jam.model" captions
# The same with the rules that decided in each instant: between them stands what is put up without.
# with_rules NAME MODEL CUES
with_rules() {
  insert "$1-rules" 0 "$here/$2.model" "$3" --rules
  grep -v ' lit' "$made/$1-rules.out" >"$made/$1-others.out"
  agree "inserter $1 with and without rules" "$here/$1.inserted" "$made/$1-others.out"
}
with_rules captions captions captions
with_rules stray captions stray
with_rules meeting meeting meeting
with_rules meeting-half-open meeting-half-open meeting
# The half-open file is the other one with three bytes more.
{ cat "$here/meeting.model" && printf '\001\000\002'; } >"$made/three_more.model"
agree 'meeting, half-open' "$here/meeting-half-open.model" "$made/three_more.model"

# The archive: what the inserter puts up, kept by columns and given back; a day of cues, searched by moment; and refusals.
build archive "$here/archive.c"
archive() {
  "$made/archive" "$@" 2>&1
  echo "status $?"
}
# list_again NAME MODEL: a list of cues whose records the inserter has put up
list_again() {
  "$made/archive" keep "$2" "$here/$1.cues" "$made/$1.columns" >/dev/null
  "$made/archive" list "$made/$1.columns" >"$made/$1.listed"
  grep '^[0-9].*:' "$here/$1.inserted" >"$made/$1.records"
  agree "archive $1" "$made/$1.records" "$made/$1.listed"
}
list_again captions "$here/captions.model"
list_again stray "$here/captions.model"
list_again busy "$made/busy.model"
awk 'BEGIN { for (t = 0; t < 86400000; t += 5000) print t, 0, 7 + t / 5000 % 2; print "end 86400000" }' >"$made/day.cues"
{
  archive keep "$here/captions.model" "$made/day.cues" "$made/day.columns"
  archive find "$made/day.columns" 0
  archive find "$made/day.columns" 40
  archive find "$made/day.columns" 43205000
  archive find "$made/day.columns" 43205040
  archive find "$made/day.columns" 43205041
  archive find "$made/day.columns" 86397040
  archive list "$made/day.columns" | tail -n 3
  echo 'end 60' >"$made/short.cues"
  archive keep "$made/nested.model" "$made/short.cues" "$made/nested.columns"
  archive find "$made/nested.columns" 55
  archive keep "$here/full_root_bag.model" "$made/short.cues" "$made/full.columns"
  archive find "$made/full.columns" 5 | cut -c 1-20 | tail -n 3
  head -c 648003 "$made/day.columns" >"$made/cut.columns"
  archive find "$made/cut.columns" 40
  archive keep "$here/captions.model" "$here/backwards.cues" "$made/backwards.columns"
  archive list "$made/backwards.columns"
  archive keep "$made/jam.model" "$here/captions.cues" "$made/jam.columns"
  archive find "$made/jam.columns" 200
  archive find "$made/jam.columns" 200ms
  archive list "$made" | sed "s:$made:.:"
} >"$made/day.out"
agree 'archive day' "$here/day.archived" "$made/day.out"

# Feeds: the worked run, the cues that the inserter takes, a day of cues through a trace of any length; and refusals.
build feed "$here/feed.c"
build_as_cpp feed_as_cpp "$here/feed.c"
feed() {
  "$made/feed" "$@" 2>&1
  echo "status $?"
}
model cue_source
"$made/feed" "$here/captions.model" "$here/captions.feed" 8000 | grep '^[0-9].*:' >"$made/captions.fed"
agree 'feed of the captions' "$made/captions.records" "$made/captions.fed"
"$made/feed" "$here/captions.model" "$here/day.feed" 86400000 >"$made/day.whole"
for room in 15 29 65536; do
  "$made/feed_as_cpp" "$here/captions.model" "$here/day.feed" 86400000 "$room" >"$made/day.parts"
  agree "feed of a day, $room bytes a call" "$made/day.whole" "$made/day.parts"
done
{
  feed "$made/cue_source.model" "$here/cue_source.feed" 30
  grep -c : "$made/day.whole"
  head -n 5 "$made/day.whole"
  tail -n 5 "$made/day.whole"
  head -c 20 "$here/captions.feed" >"$made/cut.feed"
  feed "$here/captions.model" "$made/cut.feed" 8000
  feed "$here/captions.model" "$here/captions.feed" 4999
  feed "$here/captions.model" "$here/captions.feed" 1000000000001
  feed "$made/jam.model" "$here/captions.feed" 8000
  feed "$here/captions.model" "$here/captions.feed" 8000 14
  feed "$made/bad_rule.model" "$here/captions.feed" 8000
  feed "$here/captions.model" "$here/captions.feed" noon
  feed "$here/captions.model" "$made/none.feed" 8000 | sed "s:$made:.:"
} >"$made/day.out"
agree 'feeds' "$here/day.fed" "$made/day.out"

# Several channels: a busy one before a quiet one, which has its own share, and behind it, where it has what is left over; a channel for
# each list there may be; and refusals.
build channels "$here/channels.c"
build_as_cpp channels_as_cpp "$here/channels.c"
channels() {
  "$made/channels" "$@" 2>&1
  echo "status $?"
}
# Whatever their neighbours do, channels put up what the inserter puts up of each alone.
# alone CUES CHANNEL OUTPUT
alone() {
  "$made/inserter" "$here/crawl.model" "$here/$1.cues" | grep '^[0-9].*:' >"$made/$1.alone"
  sed -n "s/^$2: //p" "$3" >"$made/$1.beside"
  agree "channel $2 with $1.cues, alone and beside others" "$made/$1.alone" "$made/$1.beside"
}
"$made/channels_as_cpp" "$here/crawl.model" 2048 "$here/crawl.cues" "$here/quiet.cues" >"$made/busy_first.out"
alone crawl 0 "$made/busy_first.out"
alone quiet 1 "$made/busy_first.out"
eight=()
for _ in 1 2 3 4; do eight+=("$here/quiet.cues" "$here/crawl.cues"); done
"$made/channels" "$here/crawl.model" 8192 "${eight[@]}" >"$made/eight.out"
alone quiet 6 "$made/eight.out"
alone crawl 7 "$made/eight.out"
{
  channels "$here/crawl.model" 2048 "$here/crawl.cues" "$here/quiet.cues"
  channels "$here/crawl.model" 2048 "$here/quiet.cues" "$here/crawl.cues"
  channels "$here/crawl.model" 100000 "$here/crawl.cues"
  channels "$here/crawl.model" 2047 "$here/crawl.cues" "$here/quiet.cues"
  channels "$made/jam.model" 2048 "$here/crawl.cues" "$here/quiet.cues"
  channels "$here/captions.model" 1024 "$here/backwards.cues"
  channels "$here/captions.model" 2048 "$here/quiet.cues" "$here/crowd.cues"
  channels "$made/bad_rule.model" 1024 "$here/quiet.cues"
  channels "$here/crawl.model" 9216 "${eight[@]}" "$here/quiet.cues"
  channels "$here/crawl.model" 1024 "$made/none.cues" | sed "s:$made:.:"
} >"$made/crawl.out"
agree 'channels' "$here/crawl.channels" "$made/crawl.out"

# The heaviest calls on a stack of 256 KiB.
build stack "$top/host/stack/stack.c"
ran stack "$made/stack" "$here"/*.model

[ "$failed" -eq 0 ]
