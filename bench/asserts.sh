#!/bin/bash
# Prints what an annotation takes in a run: of a loop of 5,000,000 turns with an assert of three parts in each, beside the same loop with the
# same test in C, and the loop with neither, each run by ./eacsl; and of the loop with the test, and the bare one, as gcc -O0 compiles them.
# Then nanoseconds an annotation and a test, beyond the bare loop, and their ratios. Seconds are the least of some runs.
set -euo pipefail

top=$(cd -- "$(dirname -- "${BASH_SOURCE[0]}")/.." && pwd)
scratch=$(mktemp -d)
trap 'rm -rf "$scratch"' EXIT

turns=5000000
condition='0 <= i && i < 5000001 && (i & 1) == i % 2'

# a loop of so many turns with this line in each
loop_with() {
  cat <<C
int main(void) {
  for (int i = 0; i < $turns; i++) {
    $1
  }
  return 0;
}
C
}

# the least milliseconds of so many runs of a command, which must end with the status 0
measured() {
  local milliseconds status runs=$1
  shift
  read -r milliseconds _ status _ < <(python3 "$top/bench/measure.py" "$runs" /dev/null "$@")
  [[ $status == 0 ]] || { echo "status $status: $*" >&2; return 1; }
  echo "$milliseconds"
}

# the milliseconds of a text by ./eacsl
run_takes() {
  measured 5 "$top/eacsl" run "$scratch/$1.c"
}

# the milliseconds of a text as gcc compiles it, 0 where there is no gcc
compiled_takes() {
  if command -v gcc >/dev/null; then
    gcc -O0 -o "$scratch/$1" "$scratch/$1.c"
    measured 5 "$scratch/$1"
  else
    echo 0
  fi
}

# builds the proved program where that is due, so that no figure is of an unproved one
"$top/eacsl" --build >&2

loop_with ';' >"$scratch/bare.c"
loop_with "if (!($condition)) return 1;" >"$scratch/tested.c"
loop_with "/*@ assert $condition; */" >"$scratch/annotated.c"

bare=$(run_takes bare)
tested=$(run_takes tested)
annotated=$(run_takes annotated)
bare_compiled=$(compiled_takes bare)
tested_compiled=$(compiled_takes tested)

awk -v turns="$turns" -v bare="$bare" -v tested="$tested" -v annotated="$annotated" -v bare_c="$bare_compiled" -v tested_c="$tested_compiled" '
  function nanoseconds(ms, without) { return (ms - without) * 1e6 / turns }
  BEGIN {
    printf "%-44s %10s %10s\n", "a loop of 5,000,000 turns, milliseconds", "eacsl", "gcc -O0"
    printf "%-44s %10.1f %10.1f\n", "with neither", bare, bare_c
    printf "%-44s %10.1f %10.1f\n", "with the test in C", tested, tested_c
    printf "%-44s %10.1f\n", "with the assert", annotated
    printf "%-44s %10.1f %10.1f\n", "nanoseconds a test", nanoseconds(tested, bare), nanoseconds(tested_c, bare_c)
    printf "%-44s %10.1f\n", "nanoseconds an annotation", nanoseconds(annotated, bare)
    printf "%-44s %10.2f\n", "the loop with the assert to that with the test", annotated / tested
    if (tested > bare) printf "%-44s %10.2f\n", "an annotation to a test", (annotated - bare) / (tested - bare)
    if (tested_c > 0) printf "%-44s %10.2f\n", "the loop with the assert to gcc -O0", annotated / tested_c
  }'
