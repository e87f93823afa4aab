#!/bin/bash
# Prints what effects inside expressions and `switch` take. First the processor's instructions, counted by valgrind: of a call of fib, written
# as one sum of two calls and with two variables; of an element that a loop adds by `s += a[i++]` in its step, and written out; of one that
# `a[i++] = b[j++]` copies, and written out; of a byte that `while ((c = getchar()) != EOF)` reads; of a `switch` that takes the first, the middle and the last of 256 cases, and none of them, without the
# loop around it; of a case that the search passes, with the sixteenth part of a test in front of 16 cases; and of a test in front of a case's items.
# Then the seconds in which a `switch` of 60,000 cases is read, typed and translated. It measures the proved program; `printf` has bench/print.sh.
set -euo pipefail

top=$(cd -- "$(dirname -- "${BASH_SOURCE[0]}")/.." && pwd)
scratch=$(mktemp -d)
trap 'rm -rf "$scratch"' EXIT

# shellcheck source=bench/workloads
. "$top/bench/workloads"
# shellcheck source=bench/counting
. "$top/bench/counting"

# the Fibonacci number of this index, as one sum of two calls
fib_sum_of() {
  cat <<C
int fib(int n) {
  return n < 2 ? n : fib(n - 1) + fib(n - 2);
}
int main(void) {
  return fib($1) % 100;
}
C
}

# 1,000 elements that are added so many times, by a loop with this step and this body
added_of() {
  cat <<C
int a[1000];
int main(void) {
  int n = 1000;
  int s = 0;
  int i;
  for (int time = 0; time < $1; time++)
    for (i = 0; i < n; $2)
      $3;
  return s % 100;
}
C
}

in_step_of() {
  added_of "$1" 's += a[i++]' ''
}

in_body_of() {
  added_of "$1" 'i++' 's += a[i]'
}

# 1,000 elements that are copied so many times
copied_of() {
  cat <<C
int a[1000];
int b[1000];
int main(void) {
  for (int time = 0; time < $1; time++) {
    int i = 0;
    int j = 0;
    $2
  }
  return a[0];
}
C
}

copied_in_one_of() {
  copied_of "$1" 'while (i < 1000) a[i++] = b[j++];'
}

copied_by_index_of() {
  copied_of "$1" 'for (; i < 1000; i++) a[i] = b[i];'
}

# a loop of so many turns with this statement in each
turns_of() {
  cat <<C
int main(void) {
  int x = $2;
  int s = 0;
  for (int i = 0; i < $1; i++) {
    $3
  }
  return s % 100;
}
C
}

# so many cases, of which each adds 1
cases() {
  awk -v n="$1" 'BEGIN { printf "switch (x) {"; for (i = 0; i < n; i++) printf " case %d: s = s + 1; break;", i; print " }" }'
}

no_switch_of() {
  turns_of "$1" 0 ';'
}

first_of() {
  turns_of "$1" 0 "$(cases 256)"
}

middle_of() {
  turns_of "$1" 127 "$(cases 256)"
}

last_of() {
  turns_of "$1" 255 "$(cases 256)"
}

none_of() {
  turns_of "$1" 256 "$(cases 256)"
}

none_of_16_of() {
  turns_of "$1" 256 "$(cases 16)"
}

first_of_16_of() {
  turns_of "$1" 0 "$(cases 16)"
}

last_of_16_of() {
  turns_of "$1" 15 "$(cases 16)"
}

# those of a byte that a loop reads, by inputs of two lengths
byte_takes() {
  local few many
  printf '#include <stdio.h>\nint main(void) {\n  int c;\n  while ((c = getchar()) != EOF) ;\n  return 0;\n}\n' >"$scratch/reads.c"
  few=$(head -c 1000 /dev/zero | instructions_of "$program" run "$scratch/reads.c")
  many=$(head -c 101000 /dev/zero | instructions_of "$program" run "$scratch/reads.c")
  awk -v a="$few" -v b="$many" 'BEGIN { print (b - a) / 100000 }'
}

# builds the proved program where that is due, so that no figure is of an unproved one
"$top/eacsl" --build >&2
program=$top/crates/eacsl/out/eacsl

printf '%-64s %10s\n' "the processor's instructions" ''
figure 'a call of fib, as one sum' "$(unit_takes fib_sum 10 20 21714)"
figure 'a call of fib, with two variables' "$(unit_takes fib 10 20 21714)"
figure 'an element by s += a[i++] in the step' "$(unit_takes in_step 10 110 100000)"
figure 'the same written out' "$(unit_takes in_body 10 110 100000)"
figure 'an element by a[i++] = b[j++]' "$(unit_takes copied_in_one 10 110 100000)"
figure 'the same written out' "$(unit_takes copied_by_index 10 110 100000)"
figure 'a byte that while ((c = getchar()) != EOF) reads' "$(byte_takes)"

without=$(unit_takes no_switch 1000 2000 1000)
for which in first middle last none; do
  all=$(unit_takes "$which" 1000 2000 1000)
  figure "a switch, $which of 256 cases" "$(awk -v a="$all" -v b="$without" 'BEGIN { print a - b }')"
done
few=$(unit_takes none_of_16 1000 2000 1000)
search=$(awk -v a="$all" -v b="$few" 'BEGIN { print (a - b) / 240 }')
figure 'a case that the search passes' "$search"
nearest=$(unit_takes first_of_16 1000 2000 1000)
farthest=$(unit_takes last_of_16 1000 2000 1000)
figure 'a test in front of items that is passed' "$(awk -v a="$farthest" -v b="$nearest" -v s="$search" 'BEGIN { print (a - b) / 15 - s }')"

{
  echo 'int main(void) { int x = 0; switch (x) {'
  awk 'BEGIN { for (i = 0; i < 60000; i++) print "case " i ":" }'
  echo '; } return 0; }'
} >"$scratch/many.c"
read -r ms _ < <(python3 "$top/bench/measure.py" 3 /dev/null "$program" instrument "$scratch/many.c")
figure '60,000 cases read, typed and translated, ms' "$ms"
