#!/bin/bash
# Prints what native programs take beside gcc -O0, or clang++ -O0 where there is no gcc, of the same text without its annotations, and beside `run`,
# in milliseconds of user time: a loop of 5,000,000 turns with a sum and an assert, 1,000 elements that are summed 20,000 times, a loop of 5,000,000
# turns with an assert of three parts, fib(30), a bubble sort of 2,000 elements that stand backwards, and 1,200,000 blocks of the heap; with their
# ratios. Each is the least of five runs. Then the seconds of user time that the first launch takes, which compiles, of 4,000 lines in functions of 20,
# of 4,000 lines in one, and of 8 lines, and the KiB of a run of those 8.
set -euo pipefail

top=$(cd -- "$(dirname -- "${BASH_SOURCE[0]}")/.." && pwd)
scratch=$(mktemp -d)
trap 'rm -rf "$scratch"' EXIT
export EACSL_QUIET=1

# what compiles C, as it stands beside the compiler of C++
if command -v gcc >/dev/null; then
  c_compiler=(gcc)
elif command -v clang++ >/dev/null; then
  c_compiler=(clang++ -x c)
else
  echo 'skipped, no compiler is there'
  exit
fi

# shellcheck source=bench/workloads
. "$top/bench/workloads"

# a loop of so many turns with an assert of three parts
assert_of() {
  cat <<C
int main(void) {
  for (int i = 0; i < $1; i++) {
    /*@ assert 0 <= i && i < $(($1 + 1)) && (i & 1) == i % 2; */
  }
  return 0;
}
C
}

# about 4,000 lines: in functions of 20, and in one
functions() {
  awk 'BEGIN {
    for (f = 0; f < 190; f++) {
      print "int f" f "(int n) {\n  int a[8] = {0};"
      for (i = 0; i < 6; i++) print "  n = n * 7 % 1001;\n  a[n & 7] += n;\n  //@ assert -1001 < n && n < 1001;"
      print "  return n;\n}"
    }
    print "int main(void) {\n  int n = 1;"
    for (f = 0; f < 190; f++) print "  n = f" f "(n);"
    print "  return n;\n}"
  }'
}

one_function() {
  awk 'BEGIN {
    print "int main(void) {\n  int a[8] = {0};\n  int n = 1;"
    for (i = 0; i < 1330; i++) print "  n = n * 7 % 1001;\n  a[n & 7] += n;\n  //@ assert -1001 < n && n < 1001;"
    print "  return 0;\n}"
  }'
}

# the user milliseconds of a command, the least of five runs
measured() {
  python3 "$top/bench/measure.py" 5 /dev/null "$@" | cut -d' ' -f4
}

# Launches a text, and finds the native program that was run, which is kept: `native`.
launch() {
  touch "$scratch/before"
  "$top/eacsl" --native "$scratch/$1.c" --steps 0 >/dev/null 2>&1 || true
  native=$(find "$top/out/native" -type f -newer "$scratch/before" | head -n 1)
}

# the seconds of user time of a text's first launch, `compiled`, after which its program is kept
first_launch() {
  local TIMEFORMAT=%U
  launch "$1"
  rm -f -- "$native"
  { time launch "$1"; } 2>"$scratch/compiled"
  compiled=$(<"$scratch/compiled")
}

# a line of figures of a workload of this size
line() {
  local name=$1 size=$2 what=$3 by_run by_gcc by_native
  "${name}_of" "$size" >"$scratch/$name.c"
  launch "$name"
  "${c_compiler[@]}" -O0 -w -o "$scratch/$name" "$scratch/$name.c"
  by_native=$(measured "$native" --steps 1000000000)
  by_gcc=$(measured "$scratch/$name")
  by_run=$(measured "$top/eacsl" run "$scratch/$name.c" --steps 1000000000)
  awk -v what="$what" -v native="$by_native" -v gcc="$by_gcc" -v run="$by_run" 'BEGIN {
    printf "%-34s %8.1f %8.1f %8.1f %8.1f %8.3f\n", what, native, gcc, run, (gcc > 0 ? native / gcc : 0), (run > 0 ? native / run : 0) }'
}

# a line of the seconds that a text's first launch takes
first_line() {
  "$1" >"$scratch/$1.c"
  first_launch "$1"
  printf '%-34s %8.1f\n' "$2" "$compiled"
}

# builds the proved program where that is due, so that no figure is of an unproved one
"$top/eacsl" --build >&2

printf '%-34s %8s %8s %8s %8s %8s\n' 'user milliseconds' native "${c_compiler[0]} -O0" run "to ${c_compiler[0]}" 'to run'
line loop 5000000 'a loop with a sum and an assert'
line sum 20000 'sums of 1,000 elements'
line assert 5000000 'an assert of three parts'
line fib 30 'fib(30)'
line sort 2000 'a sort of 2,000 elements'
line heap 1200000 'blocks of the heap'
printf '\n%-34s %8s\n' 'seconds of the first launch' user
first_line functions '4,000 lines in functions of 20'
first_line one_function '4,000 lines in one function'
first_line least '8 lines'
if [[ -x /usr/bin/time ]]; then
  printf '\n%-34s %8s\n' 'KiB of a run of 8 lines' "$(/usr/bin/time -f %M "$native" 2>&1 >/dev/null | tail -n 1)"
fi
