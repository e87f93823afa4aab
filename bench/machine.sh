#!/bin/bash
# Prints what the machine takes: of a loop of 5,000,000 turns with a sum and an assert each, of fib(27) with its 635,621 calls, of
# 1,000 elements that are summed 20,000 times, of a bubble sort of 2,000 elements that stand backwards, and of 120,000 blocks that are
# born and freed; each by forms, instruction by instruction, and as gcc -O0 compiles the program without its annotations. And what it
# takes of calls until all 65,536 frames are taken, from the start of the process to the verdict of a program of 8 lines, and to find
# the forms of a text of 200,000 tokens. Times are the least of some runs, by the clock and of user time alone. Where valgrind is there, it
# counts the processor's instructions of a turn, a call, an access and a block both ways. It measures through ./eacsl and
# crates/bench_c_machine.
set -euo pipefail

top=$(cd -- "$(dirname -- "${BASH_SOURCE[0]}")/.." && pwd)
scratch=$(mktemp -d)
trap 'rm -rf "$scratch"' EXIT

# shellcheck source=bench/workloads
. "$top/bench/workloads"

# a text of nearly 200,000 tokens, whose statements come after its end
long_of() {
  echo 'int main(void) {'
  echo '  int x = 0;'
  echo '  if (x == 0)'
  echo '    return 0;'
  awk 'BEGIN { for (i = 0; i < 33300; i++) print "  x = x + 1;" }'
  echo '  return 0;'
  echo '}'
}

# calls that have no end, so that they take all frames
deep() {
  cat <<'C'
int f(int n) {
  return f(n);
}
int main(void) {
  return f(0);
}
C
}

# what so many runs of a command on this input take: see bench/measure.py
measured() {
  python3 "$top/bench/measure.py" "$@"
}

# a line of figures: what, milliseconds and KiB
line() {
  local name=$1 runs=$2
  shift 2
  measured "$runs" /dev/null "$@" | awk -v name="$name" '{ printf "%-34s %10.1f %12d\n", name, $1, $2 }'
}

# the input of the program that runs both ways: a way, and a text of this workload and size
input_of() {
  local way=$1 times=$2 workload=$3 size=$4
  echo "$way 1000000000 $times"
  "${workload}_of" "$size"
}

# the milliseconds of a workload one way, by the clock and of user time
way_takes() {
  input_of "$1" 1 "$2" "$3" >"$scratch/input"
  measured "$4" "$scratch/input" "$both" | cut -d' ' -f1,4
}

# a line of figures of a workload: what, milliseconds by forms, without, and of gcc's program, each with the user time of it, and by how much
# forms are faster
beside() {
  local name=$1 workload=$2 size=$3 runs=$4 fused plain compiled='0 0'
  fused=$(way_takes fused "$workload" "$size" "$runs")
  plain=$(way_takes plain "$workload" "$size" "$runs")
  if command -v gcc >/dev/null; then
    "${workload}_of" "$size" >"$scratch/compiled.c"
    gcc -O0 -o "$scratch/compiled" "$scratch/compiled.c"
    compiled=$(measured "$runs" /dev/null "$scratch/compiled" | cut -d' ' -f1,4)
  fi
  awk -v name="$name" '{ printf "%-34s %9.1f %7.1f %9.1f %7.1f %9.1f %7.1f %8.2f\n", name, $1, $2, $3, $4, $5, $6, $3 / $1 }' <<<"$fused $plain $compiled"
}

# the processor's instructions of a run on an input
instructions_of() {
  valgrind --tool=callgrind --callgrind-out-file=/dev/null "$both" <"$scratch/input" 2>&1 >/dev/null | sed -n 's/.*Collected : \([0-9]*\).*/\1/p'
}

# the processor's instructions of one unit one way, by two sizes that are so many units apart
unit_takes() {
  local way=$1 workload=$2 less=$3 more=$4 units=$5 few many
  input_of "$way" 1 "$workload" "$less" >"$scratch/input"
  few=$(instructions_of)
  input_of "$way" 1 "$workload" "$more" >"$scratch/input"
  many=$(instructions_of)
  awk -v units="$units" -v a="$few" -v b="$many" 'BEGIN { printf "%.1f", (b - a) / units }'
}

# a line of figures: what, and the processor's instructions of one unit by forms and without
each() {
  local name=$1
  shift
  awk -v name="$name" -v f="$(unit_takes fused "$@")" -v p="$(unit_takes plain "$@")" 'BEGIN { printf "%-34s %10.1f %10.1f %10.2f\n", name, f, p, p / f }'
}

# the milliseconds of so many runs of the long text one way
long_takes() {
  input_of "$1" "$2" long 0 >"$scratch/input"
  measured 3 "$scratch/input" "$both" | cut -d' ' -f1
}

# builds the proved programs where that is due, so that no figure is of an unproved one
least >"$scratch/least.c"
"$top/eacsl" --build >&2
both=$top/crates/bench_c_machine/out/bench_c_machine
if [[ ! -x $both || -n $(find "$top/crates.txt" "$top"/crates/*/{src,specs,proofs} -newer "$both" -print -quit) ]]; then
  (cd "$top/crates/bench_c_machine" && rt run <stdin >/dev/null 2>&1)
fi
deep >"$scratch/deep.c"

printf '%-34s %10s %12s\n' what ms 'peak (KiB)'
line 'a program of 8 lines, eacsl run' 20 "$top/eacsl" run "$scratch/least.c"
line 'the same without the launcher' 20 "$top/crates/eacsl/out/eacsl" run "$scratch/least.c"
line 'calls that take all 65,536 frames' 5 "$top/eacsl" run "$scratch/deep.c"

printf '%-34s %9s %7s %9s %7s %9s %7s %8s\n' milliseconds 'by forms' user without user 'gcc -O0' user faster
beside 'a loop of 5,000,000 turns' loop 5000000 5
beside 'fib(27), 635,621 calls' fib 27 5
beside '1,000 elements summed 20,000 times' sum 20000 2
beside 'a bubble sort of 2,000 elements' sort 2000 2
beside '120,000 blocks of the heap' heap 120000 5

# a run ends at once, so what it takes more by forms is to find them
awk -v one="$(long_takes fused 1)" -v some="$(long_takes fused 21)" -v none="$(long_takes plain 1)" -v plain="$(long_takes plain 21)" \
  'BEGIN { printf "%-34s %10.1f\n", "the forms of 200,000 tokens, ms", (some - one - plain + none) / 20 }'

if command -v valgrind >/dev/null; then
  printf '%-34s %10s %10s %10s\n' "the processor's instructions" 'by forms' without fewer
  each 'a turn of the loop' loop 1000 101000 100000
  each 'a call of fib' fib 10 20 21714
  each 'an element of a sum' sum 1 101 100000
  each 'a comparison of the sort' sort 10 300 44805
  each 'a block of the heap' heap 100 10100 10000
fi
