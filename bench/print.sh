#!/bin/bash
# Prints what a line of output takes: 1,000,000 lines of printf("%d %s\n", i, "abc") to a file, beside the same loop without them, run by ./eacsl and as gcc -O0
# compiles it. Nanoseconds a line are those of the whole run, the least of some runs, by the clock and of user time alone. Where valgrind is there, it counts the
# processor's instructions of a line.
set -euo pipefail

top=$(cd -- "$(dirname -- "${BASH_SOURCE[0]}")/.." && pwd)
scratch=$(mktemp -d)
trap 'rm -rf "$scratch"' EXIT
program=$top/crates/eacsl/out/eacsl

# shellcheck source=bench/counting
. "$top/bench/counting"

lines=1000000
line='printf("%d %s\n", i, "abc")'

# a loop of so many turns with this in each
loop_of() {
  cat <<C
#include <stdio.h>
int main(void) {
  for (int i = 0; i < $1; i++)
    $2;
  return 0;
}
C
}

line_of() {
  loop_of "$1" "$line"
}

bare_of() {
  loop_of "$1" ''
}

# what 5 runs of a command with its output in a file take, which must end with the status 0: milliseconds by the clock, and of user time
measured() {
  local milliseconds status user
  # shellcheck disable=SC2016 # its words
  read -r milliseconds _ status user _ < <(python3 "$top/bench/measure.py" 5 /dev/null sh -c 'exec "$@" >"$0"' "$scratch/output" "$@")
  [[ $status == 0 ]] || { echo "status $status: $*" >&2; return 1; }
  echo "$milliseconds $user"
}

# the milliseconds of a text as gcc compiles it, 0 where there is no gcc
compiled_takes() {
  if command -v gcc >/dev/null; then
    gcc -std=c99 -O0 -o "$scratch/compiled" "$1"
    measured "$scratch/compiled"
  else
    echo 0 0
  fi
}

# a line of figures: what, and the nanoseconds a line by ./eacsl and by gcc's program, each with the user time of it
beside() {
  "${2}_of" "$lines" >"$scratch/a.c"
  awk -v name="$1" -v n="$lines" '{ printf "%-34s %10.1f %10.1f %10.1f %10.1f\n", name, $1 / n * 1e6, $2 / n * 1e6, $3 / n * 1e6, $4 / n * 1e6 }' \
    <<<"$(measured "$program" run "$scratch/a.c") $(compiled_takes "$scratch/a.c")"
}

# a line of figures: what, and the processor's instructions of a turn
each() {
  printf '%-34s %10s\n' "$1" "$(unit_takes "$2" 1000 101000 100000)"
}

# builds the proved program where that is due, so that no figure is of an unproved one
"$top/eacsl" --build >&2

printf '%-34s %10s %10s %10s %10s\n' 'nanoseconds a line' eacsl user 'gcc -O0' user
beside 'a line' line
beside 'the loop alone' bare

if command -v valgrind >/dev/null; then
  printf '\n%-34s %10s\n' "the processor's instructions" eacsl
  each 'a line' line
  each 'the loop alone' bare
fi
