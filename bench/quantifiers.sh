#!/bin/bash
# Prints what loops over values and loop annotations take. First the processor's instructions, counted by valgrind: of one value of a \forall over an array of ints,
# which compares each element with the next one or with a constant, and of an \exists; and of one turn of a loop with an invariant and a variant, with each alone, and
# without. Then milliseconds of user time, the least of some runs: of that \forall over 200,000 elements, 100 times; of 1,000,000 turns of that loop, with its
# annotations and without; and of texts of 1,250, 2,500 and 5,000 loops with two clauses each, which are read, typed, bounded, translated and run. It measures the
# proved program.
set -euo pipefail

top=$(cd -- "$(dirname -- "${BASH_SOURCE[0]}")/.." && pwd)
scratch=$(mktemp -d)
trap 'rm -rf "$scratch"' EXIT

# shellcheck source=bench/counting
. "$top/bench/counting"

# an array of so many elements, and so often an assert of it
asserted() {
  cat <<C
int a[$1];
int main(void) {
  int n = $1;
  for (int i = 0; i < n; i++)
    a[i] = i;
  for (int i = 0; i < $2; i++) {
    //@ assert $3;
  }
  return 0;
}
C
}

sorted='\forall integer i; 0 <= i < n - 1 ==> a[i] <= a[i + 1]'

sorted_of() { asserted 2001 "$1" "$sorted"; }
bounded_of() { asserted 2001 "$1" '\forall integer i; 0 <= i < n - 1 ==> a[i] >= 0'; }
found_of() { asserted 2001 "$1" '(\exists integer i; 0 <= i < n - 1 && a[i] < 0) || n > 0'; }

# a loop of so many turns with these annotations
looped() {
  cat <<C
int main(void) {
  int n = $1;
  int i = 0;
  $2
  while (i < n) {
    i = i + 1;
  }
  return 0;
}
C
}

both='/*@ loop invariant 0 <= i; loop variant n - i; */'

both_of() { looped "$1" "$both"; }
invariant_of() { looped "$1" '/*@ loop invariant 0 <= i; */'; }
variant_of() { looped "$1" '/*@ loop variant n - i; */'; }
bare_of() { looped "$1" ''; }

# so many loops of two clauses each
loops_of() {
  awk -v n="$1" 'BEGIN {
    print "int main(void) {\n  int x = 3;\n  int i = 0;"
    for (k = 0; k < n; k++) {
      print "  i = 0;\n  /*@ loop invariant 0 <= i; loop variant x - i; */\n  while (i < x)\n    i = i + 1;"
    }
    print "  return 0;\n}"
  }'
}

# builds the proved program where that is due, so that no figure is of an unproved one
"$top/eacsl" --build >&2
program=$top/crates/eacsl/out/eacsl

printf '%-64s %10s\n' "the processor's instructions" ''
figure 'a value of \forall integer i; .. ==> a[i] <= a[i + 1]' "$(unit_takes sorted 1 11 20000)"
figure 'the same with a[i] >= 0' "$(unit_takes bounded 1 11 20000)"
figure 'a value of \exists integer i; .. && a[i] < 0' "$(unit_takes found 1 11 20000)"
figure 'a turn of a loop with an invariant and a variant' "$(unit_takes both 1000 21000 20000)"
figure 'with the invariant alone' "$(unit_takes invariant 1000 21000 20000)"
figure 'with the variant alone' "$(unit_takes variant 1000 21000 20000)"
figure 'with neither' "$(unit_takes bare 1000 21000 20000)"

printf '\n%-64s %10s\n' milliseconds ''
asserted 200000 100 "$sorted" >"$scratch/a.c"
figure 'that \forall over 200,000 elements, 100 times' "$(user_time 3 "$program" run --steps 30000000 "$scratch/a.c")"
both_of 1000000 >"$scratch/a.c"
figure '1,000,000 turns of that loop with both clauses' "$(user_time 7 "$program" run --steps 2000000 "$scratch/a.c")"
bare_of 1000000 >"$scratch/a.c"
figure 'the same without' "$(user_time 7 "$program" run --steps 2000000 "$scratch/a.c")"
for n in 1250 2500 5000; do
  loops_of "$n" >"$scratch/a.c"
  figure "$n loops with two clauses each" "$(user_time 7 "$program" run "$scratch/a.c")"
done
