#!/bin/bash
# Prints what questions about memory in annotations take. First the processor's instructions, counted by valgrind: of a turn of three `\valid` deep in a recursion,
# with 45,000 blocks of the stack alive and a block of the heap of 1,048,576 units of 16 bytes; of a turn of a `for` loop with `//@ assert a[i] >= 0;`, and of the loop
# alone; of one of `\valid(&a[i])`. Then milliseconds, the least of some runs: of 2,000,000 turns of the three; of `\initialized` of 1 MiB, beyond the same run
# without it; and of a text with 64 zones in one `\separated`, translated and read again. It measures the proved program.
set -euo pipefail

top=$(cd -- "$(dirname -- "${BASH_SOURCE[0]}")/.." && pwd)
scratch=$(mktemp -d)
trap 'rm -rf "$scratch"' EXIT

# shellcheck source=bench/counting
. "$top/bench/counting"

# so many turns with three questions in each
three_of() {
  cat <<C
#include <stdlib.h>
int f(int n, char *p, char **q) {
  int i;
  if (n > 0) return f(n - 1, p, q);
  for (i = 0; i < $1; i++) {
    //@ assert \\valid(p) && \\valid(q) && \\valid(&i);
  }
  return 0;
}
int main(void) {
  char *p = calloc(16777215, 1);
  return f(15000, p + 16777214, &p);
}
C
}

# 1,000 elements that are passed so many times, with this in each turn
passed_of() {
  cat <<C
int a[1000];
int main(void) {
  for (int time = 0; time < $1; time++)
    for (int i = 0; i < 1000; i++) {
      $2
    }
  return 0;
}
C
}

bare_of() {
  passed_of "$1" ';'
}

read_of() {
  passed_of "$1" '/*@ assert a[i] >= 0; */'
}

asked_of() {
  passed_of "$1" '/*@ assert \valid(&a[i]); */'
}

# a block of 1 MiB with this at its end
block_of() {
  cat <<C
#include <stdlib.h>
int main(void) {
  char *p = calloc(1048576, 1);
  $1
  return 0;
}
C
}

# one \separated of so many zones
zones_of() {
  echo 'int main(void) {'
  awk -v n="$1" 'BEGIN { for (i = 0; i < n; i++) print "char a" i "[4];"; printf "//@ assert \\separated("; for (i = 0; i < n; i++) printf "%sa%d", i ? ", " : "", i; print ");" }'
  echo 'return 0; }'
}

# builds the proved program where that is due, so that no figure is of an unproved one
"$top/eacsl" --build >&2
program=$top/crates/eacsl/out/eacsl

printf '%-64s %10s\n' "the processor's instructions" ''
figure 'a turn of three \valid, deep in a recursion' "$(unit_takes three 1000 101000 100000)"
figure 'a turn of a loop with //@ assert a[i] >= 0;' "$(unit_takes read 10 110 100000)"
figure 'a turn of a loop with //@ assert \valid(&a[i]);' "$(unit_takes asked 10 110 100000)"
figure 'a turn of the loop alone' "$(unit_takes bare 10 110 100000)"

printf '\n%-64s %10s\n' milliseconds ''
three_of 2000000 >"$scratch/a.c"
figure '2,000,000 turns of three \valid' "$(user_time 5 "$program" run "$scratch/a.c")"
block_of ';' >"$scratch/a.c"
block_of '//@ assert \initialized(p + (0 .. 1048575));' >"$scratch/b.c"
figure '\initialized of 1 MiB' "$(awk -v a="$(user_time 5 "$program" run "$scratch/a.c")" -v b="$(user_time 5 "$program" run "$scratch/b.c")" 'BEGIN { print b - a }')"
zones_of 64 >"$scratch/a.c"
"$program" instrument "$scratch/a.c" >"$scratch/a.mon"
figure '64 zones in one \separated, translated' "$(user_time 5 "$program" instrument "$scratch/a.c")"
figure 'the same, read again and run' "$(user_time 5 "$program" exec "$scratch/a.mon")"
