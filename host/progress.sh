#!/usr/bin/env bash
# Where a long command is, told on standard error while its output passes: for run.sh and test.sh, which read this file.
# On a terminal it is one line that is written anew each second; elsewhere a plain line each half minute, the first after ten
# seconds, so that a command that has nothing to do says nothing.

# needed_crates NAME: how many crates of crates.txt have to be proved for one, itself among them
needed_crates() {
  awk -v name="$1" '
    function visit(crate, own, count, k) {
      if (crate in seen || !(crate in needs)) return
      seen[crate] = 1
      total++
      count = split(needs[crate], own, " ")
      for (k = 1; k <= count; k++) visit(own[k])
    }
    { split($0, sides, ":"); sub(/ .*/, "", sides[1]); needs[sides[1]] = sides[2] }
    END { visit(name); print total + 0 }
  ' crates.txt
}

# minutes: the time since the start of the script
minutes() { printf '%d min %02d s' $((SECONDS / 60)) $((SECONDS % 60)); }

# follow TITLE [CRATES [EDITS]]: passes standard input on, and tells how many crates of so many are left to prove, then how
# many edits of so many to try.
follow() {
  local title=$1 crates=${2:-0} edits=${3:-0} proved=0 tried=0
  local line='' piece status next=$((SECONDS + 10)) on_terminal=0 width
  [ ! -t 2 ] || on_terminal=1 next=0
  width=$(tput cols 2>/dev/null || echo 80)
  while true; do
    piece=''
    status=0
    IFS= read -r -t 1 piece || status=$?
    line=$line$piece
    if [ "$status" -eq 0 ]; then
      [ "$on_terminal" -eq 0 ] || [ ! -t 1 ] || printf '\r\033[K' >&2
      printf '%s\n' "$line"
      case $line in
      'rt: must-fail '* | 'refused: '* | 'WRONG: '*) tried=$((tried + 1)) ;;
      'rt: '*' proved') proved=$((proved + 1)) ;;
      esac
      line=''
    elif [ "$status" -le 128 ]; then
      break
    fi
    if [ "$SECONDS" -ge "$next" ]; then
      tell_progress
      next=$((SECONDS + (on_terminal ? 1 : 30)))
    fi
  done
  [ -z "$line" ] || printf '%s\n' "$line"
  [ "$on_terminal" -eq 0 ] || printf '\r\033[K' >&2
}

# The line itself, from what follow has counted.
tell_progress() {
  local told
  told="$title, $(minutes)"
  if [ "$proved" -lt "$crates" ] && [ "$tried" -eq 0 ]; then
    told+=", $((crates - proved)) of $crates crates left"
  elif [ "$edits" -gt 0 ]; then
    told+=", $((edits - tried)) of $edits edits left"
  fi
  if [ "$on_terminal" -eq 1 ]; then
    printf '\r\033[K%.*s' $((width - 1)) "$told" >&2
  else
    printf '%s\n' "$told" >&2
  fi
}
