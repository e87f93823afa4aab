#!/bin/bash
# Prints what contracts take. First the processor's instructions, counted by valgrind: of a call of fib with two variables and with a contract of three clauses, which
# keeps the value that the parameter had, of the same call without the contract, and of one with each clause alone. Then milliseconds of user time, the least of some
# runs: of fib(27) with the contract and without, 635,621 calls each; and of texts of 1,000, 2,000 and 4,000 functions with a contract of five clauses each, which are
# read, typed, bounded and translated, and of whose functions one is called. It measures the proved program.
set -euo pipefail

top=$(cd -- "$(dirname -- "${BASH_SOURCE[0]}")/.." && pwd)
scratch=$(mktemp -d)
trap 'rm -rf "$scratch"' EXIT

# shellcheck source=bench/workloads
. "$top/bench/workloads"
# shellcheck source=bench/counting
. "$top/bench/counting"

# the Fibonacci number of this index, by a function with this contract
contracted() {
  printf '%s\n' "$2"
  fib_of "$1"
}

whole='/*@ requires n >= 0; ensures \result >= 0; ensures n == \old(n); */'

contract_of() { contracted "$1" "$whole"; }
bare_of() { contracted "$1" ''; }
requires_of() { contracted "$1" '/*@ requires n >= 0; */'; }
result_of() { contracted "$1" '/*@ ensures \result >= 0; */'; }
kept_of() { contracted "$1" '/*@ ensures n == \old(n); */'; }

# so many functions with a contract of five clauses each
functions_of() {
  awk -v n="$1" 'BEGIN {
    for (i = 0; i < n; i++) {
      print "/*@ requires a >= 0; requires b >= 0; ensures \\result >= a; ensures \\result == a + b; ensures a == \\old(a); */"
      print "int f" i "(int a, int b) {\n  return a + b;\n}"
    }
    print "int main(void) {\n  int r = f0(1, 2);\n  return r - 3;\n}"
  }'
}

# builds the proved program where that is due, so that no figure is of an unproved one
"$top/eacsl" --build >&2
program=$top/crates/eacsl/out/eacsl

printf '%-64s %10s\n' "the processor's instructions" ''
figure 'a call of fib with requires, ensures \result and ensures \old' "$(unit_takes contract 10 20 21714)"
figure 'the same without a contract' "$(unit_takes bare 10 20 21714)"
figure 'with requires n >= 0; alone' "$(unit_takes requires 10 20 21714)"
figure 'with ensures \result >= 0; alone' "$(unit_takes result 10 20 21714)"
figure 'with ensures n == \old(n); alone' "$(unit_takes kept 10 20 21714)"

printf '\n%-64s %10s\n' milliseconds ''
contract_of 27 >"$scratch/a.c"
figure 'fib(27) with the contract, 635,621 calls' "$(user_time 7 "$program" run "$scratch/a.c")"
bare_of 27 >"$scratch/a.c"
figure 'the same without' "$(user_time 7 "$program" run "$scratch/a.c")"
for n in 1000 2000 4000; do
  functions_of "$n" >"$scratch/a.c"
  figure "$n functions with a contract of five clauses each" "$(user_time 7 "$program" run "$scratch/a.c")"
done
