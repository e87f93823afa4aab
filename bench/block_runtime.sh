#!/bin/bash
# Prints what one call of `block_runtime::Runtime` takes: the nanoseconds, beside those of a plain C loop as gcc -O0 compiles it, and the
# processor's instructions where valgrind is there. A turn of the loop that calls it is counted with it: 5 instructions, and 2 more that
# fold what was loaded. Run it anywhere in the repository, with the kit's `rt` on the path.
set -euo pipefail

passes=${1:-10000}
numbers=8192
root=$(git rev-parse --show-toplevel)
scratch=$(mktemp -d)
trap 'rm -rf "$scratch"' EXIT

cat > "$scratch/plain.c" <<'C'
#include <stdint.h>
#include <stdio.h>
#include <string.h>

enum { NUMBERS = 8192 };

static int32_t numbers[NUMBERS];

static uint64_t load_all(uint64_t folded) {
  for (int i = 0; i < NUMBERS; i++) folded = 3 * folded ^ (uint32_t)numbers[i];
  return folded;
}

static void store_all(uint64_t value) {
  for (int i = 0; i < NUMBERS; i++) numbers[i] = (int32_t)value;
}

int main(void) {
  char work[8];
  unsigned long passes;
  while (scanf("%7s %lu", work, &passes) == 2) {
    uint64_t folded = 0;
    store_all(0x01020304);
    for (uint64_t value = 0; value < passes; value++) {
      if (strcmp(work, "store") == 0) store_all(value);
      else folded = load_all(folded);
    }
    printf("%llu\n", (unsigned long long)folded);
  }
  return 0;
}
C

cd "$root/crates/bench_block_runtime"
rt run >/dev/null 2>&1
bench=$PWD/out/bench_block_runtime
gcc -O0 -o "$scratch/plain" "$scratch/plain.c"

# the time of so many passes of this work
nanoseconds() {
  local from=$(date +%s%N)
  echo "$2 $3" | "$1" >/dev/null
  echo $(($(date +%s%N) - from))
}

# the same of one call, without the program's start
each() {
  local program=$1 work=$2 passes=$3 calls=$4
  local none=$(nanoseconds "$program" "$work" 0) all=$(nanoseconds "$program" "$work" "$passes")
  awk -v n=$((all - none)) -v d=$((passes * calls)) 'BEGIN { printf "%.2f", n / d }'
}

instructions() {
  echo "$1 $2" | valgrind --tool=callgrind --callgrind-out-file=/dev/null "$bench" 2>&1 >/dev/null | sed -n 's/.*Collected : \([0-9]*\).*/\1/p'
}

# the processor's instructions of one call
instructions_each() {
  local work=$1 calls=$2
  awk -v a="$(instructions "$work" 1)" -v b="$(instructions "$work" 11)" -v d=$((10 * calls)) 'BEGIN { printf "%.1f", (b - a) / d }'
}

counted=
command -v valgrind >/dev/null && counted=yes

# a line of figures: what, the work's name, passes, calls of a pass, and the work's name in C, if it is there
line() {
  local name=$1 work=$2 passes=$3 calls=$4 plain=${5:-}
  printf '%-44s %12s %12s %14s\n' "$name" "$(each "$bench" "$work" "$passes" "$calls")" \
    "${plain:+$(each "$scratch/plain" "$plain" "$passes" "$calls")}" "${counted:+$(instructions_each "$work" "$calls")}"
}

printf '%-44s %12s %12s %14s\n' 'each' 'ns' 'gcc -O0 (ns)' 'instructions'
line 'a load of 4 bytes' load "$passes" $numbers load
line 'the question for a number, and its load' check "$passes" $numbers load
line 'a store of 4 bytes with its mark' store "$passes" $numbers store
line 'birth and death of a block of 4 bytes' birth "$passes" $numbers
line 'birth and death of a block of 1,048,000 bytes' large 3000000 1
line 'the same, and of one of 4 bytes above it' below 3000 1
line 'calloc of the whole heap, and its free' calloc 100 1
line 'malloc or free among 30,000 blocks' some 20 90000
line 'malloc or free among 60,000 blocks' many 10 180000
