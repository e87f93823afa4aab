#!/bin/bash
# Prints the time of one access of `raw_seg::Seg` beside that of a plain C loop, and the code of one 8-byte load.
# Run it anywhere in the repository, with the kit's `rt` on the path.
set -euo pipefail

passes=${1:-100000}
words=4096
root=$(git rev-parse --show-toplevel)
scratch=$(mktemp -d)
trap 'rm -rf "$scratch"' EXIT

cat > "$scratch/plain.c" <<'C'
#include <stdio.h>
#include <stdlib.h>
#include <string.h>
#include <stdint.h>

enum { BYTES = 32768, WORDS = 4096 };

__attribute__((noinline)) static uint64_t read_all(const uint8_t *bytes) {
  uint64_t folded = 0;
  for (int i = 0; i < WORDS; i++) {
    uint64_t word;
    memcpy(&word, bytes + 8 * i, 8);
    folded ^= word;
  }
  return folded;
}

__attribute__((noinline)) static void write_all(uint8_t *bytes, uint64_t value) {
  for (int i = 0; i < WORDS; i++) memcpy(bytes + 8 * i, &value, 8);
}

__attribute__((noinline)) static void clear(uint8_t *bytes) {
  memset(bytes, 0, BYTES);
  __asm__ volatile("" ::: "memory");
}

int main(void) {
  char work[16];
  uint64_t passes;
  while (scanf("%15s %lu", work, &passes) == 2) {
    uint8_t *bytes = calloc(BYTES, 1);
    uint64_t folded = 0;
    for (uint64_t value = 0; value < passes; value++) {
      if (!strcmp(work, "write")) { write_all(bytes, value); folded ^= value; }
      else if (!strcmp(work, "fill")) { clear(bytes); folded ^= value; }
      else { folded ^= read_all(bytes); __asm__ volatile("" ::: "memory"); }
    }
    printf("%lu\n", folded);
    free(bytes);
  }
}
C
cc -O2 -march=x86-64-v2 -o "$scratch/plain" "$scratch/plain.c"
(cd "$root/crates/bench_raw_seg" && rt run >"$scratch/build.log" 2>&1) || { cat "$scratch/build.log"; exit 1; }
seg="$root/crates/bench_raw_seg/out/bench_raw_seg"

# the nanoseconds that a program takes for so many passes of a work
nanoseconds() {
  local from=$(date +%s%N)
  echo "$2 $3" | "$1" >/dev/null
  echo $(($(date +%s%N) - from))
}

# the same for one word of a pass, without the program's start
per_word() {
  local none=$(nanoseconds "$1" "$2" 0) all=$(nanoseconds "$1" "$2" "$passes")
  awk -v n=$((all - none)) -v d=$((passes * words)) 'BEGIN { printf "%.3f", n / d }'
}

printf '%-6s %10s %10s\n' work 'Seg (ns)' 'C (ns)'
for work in read write fill; do
  printf '%-6s %10s %10s\n' "$work" "$(per_word "$seg" "$work")" "$(per_word "$scratch/plain" "$work")"
done

echo
echo 'a loop of 8-byte loads:'
objdump -d --no-show-raw-insn "$seg" | awk '/<bench_raw_seg::read_all>:/ { inside = 1 } inside { print } /ret/ { inside = 0 }'
