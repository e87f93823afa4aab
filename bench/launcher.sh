#!/bin/bash
# Prints what the launcher `eacsl` takes: 200 launches in a copy of this tree whose proved program only ends, the least and the mean of them, and
# of as many starts of that program without the launcher.
#
#     bench/launcher.sh --trial [COMMIT..]
#
# prints the seconds that the first launch takes in a fresh checkout of each commit, or of the last one, on two processors: the kit's trial compiles
# an unproved program, which then runs an example. By the clock, and of the processors.
set -euo pipefail

top=$(cd -- "$(dirname -- "${BASH_SOURCE[0]}")/.." && pwd)
scratch=$(mktemp -d)
trap 'rm -rf "$scratch"' EXIT

# the least and the mean milliseconds of so many runs of a command
measured() {
  python3 "$top/bench/measure.py" "$1" /dev/null "${@:2}" | cut -d' ' -f1,5
}

# a line of figures: what, and the least and mean milliseconds of 200 runs of a command
line() {
  measured 200 "${@:2}" | awk -v name="$1" '{ printf "%-34s %10.1f %10.1f\n", name, $1, $2 }'
}

launches() {
  local copy=$scratch/copy program
  mkdir "$copy"
  tar -C "$top" --exclude=out -cf - eacsl launcher crates.txt crates | tar -xf - -C "$copy"
  mkdir -p "$copy/crates/eacsl/out"
  program=$copy/crates/eacsl/out/eacsl
  cp "$(type -P true)" "$program"
  printf '%-34s %10s %10s\n' milliseconds least mean
  line 'a launch' "$copy/eacsl"
  line 'the program without the launcher' "$program"
}

# a line of figures: a commit, and the seconds of its first launch
trial() {
  local checkout=$scratch/$1 TIMEFORMAT='%R %U %S' taken
  mkdir "$checkout"
  git -C "$top" archive "$1" | tar -xf - -C "$checkout"
  taken=$({ time EACSL_QUIET=1 taskset -c 0,1 "$checkout/eacsl" run "$checkout/examples/triangle.c" >/dev/null 2>&1 </dev/null; } 2>&1) || true
  rm -rf "$checkout"
  awk -v name="$1" '{ printf "%-34s %10.1f %10.1f\n", name, $1, $2 + $3 }' <<<"$taken"
}

if [[ ${1-} != --trial ]]; then
  launches
  exit
fi
shift
(($# > 0)) || set -- "$(git -C "$top" rev-parse --short HEAD)"
printf '%-34s %10s %10s\n' seconds clock processors
for commit in "$@"; do
  trial "$commit"
done
