#!/bin/bash
# Prints what long objects take: the time of a run from the start of the program, without the launcher; its peak memory, and that of `instrument`, which
# has both trees and no code; what a run takes above that for each of the object's elements; and how long the text is that `instrument` writes. The objects
# are of zeros, in a function and outside, of characters and of structs, one that no stack has room for, one that is assigned, one that a list of as many
# items initialises, and one that begins with a string. It measures the proved program, or another build of it:
#
#     bench/long_objects.sh [PROGRAM]
set -euo pipefail

top=$(cd -- "$(dirname -- "${BASH_SOURCE[0]}")/.." && pwd)
program=${1:-$top/crates/eacsl/out/eacsl}
scratch=$(mktemp -d)
trap 'rm -rf "$scratch"' EXIT

# builds the proved program where that is due, so that no figure is of an unproved one but where it is asked for
(($# > 0)) || "$top/eacsl" --build >&2

python3 - "$program" "$scratch" "$top/bench/measure.py" <<'P'
import os, subprocess, sys

program, scratch, measure = sys.argv[1:]
RUNS = 3
path = os.path.join(scratch, "text.c")
peak = os.path.join(scratch, "peak")


def peak_of(command):
    """The peak memory of a command on the text in KiB, the bytes that it writes, and the line that it ends in. A process of Python's own would begin with
    Python's memory."""
    run = subprocess.run(["/usr/bin/time", "-q", "-f", "%M", "-o", peak, program, command, path], stdin=subprocess.DEVNULL, capture_output=True)
    with open(peak) as file:
        return int(file.read()), len(run.stdout), run.stderr.decode().strip()


def time_of():
    """The least milliseconds of a run by the clock."""
    run = subprocess.run([sys.executable, measure, str(RUNS), os.devnull, program, "run", path], capture_output=True, text=True)
    return float(run.stdout.split()[0])


def body(declaration, rest=""):
    return "int main(void) { " + declaration + " " + rest + "return 0; }\n"


ITEMS = 99_000
TEXTS = [
    ("1,000,000 characters of zeros", 1_000_000, body("char b[1000000] = {0};")),
    ("the same outside functions", 1_000_000, "char b[1000000] = {0};\n" + body("")),
    ("the same, and a string first", 1_000_000, body('char b[1000000] = "a string";')),
    ("60,000 structs of a char and an int", 120_000, "struct s { char c; int i; };\n" + body("struct s b[60000] = {{0}};")),
    ("2,147,483,647 characters", None, body("char b[2147483647] = {0};")),
    ("a struct of 100,000 characters is assigned", 100_000, "struct s { char b[100000]; } x, y;\n" + body("", "x = y; ")),
    (f"a list of {ITEMS:,} items", ITEMS, body(f"char b[{ITEMS}] = {{" + ",".join(["1"] * ITEMS) + "};")),
]

print(f"{'what':<44} {'ms':>8} {'run (KiB)':>10} {'trees (KiB)':>12} {'bytes an element':>17} {'text (bytes)':>13}  ends in")
for name, elements, text in TEXTS:
    with open(path, "w") as file:
        file.write(text)
    running, _, said = peak_of("run")
    trees, written, _ = peak_of("instrument")
    each = "" if elements is None else f"{(running - trees) * 1024 / elements:.0f}"
    print(f"{name:<44} {time_of():>8.1f} {running:>10} {trees:>12} {each:>17} {written:>13}  {said}")
P
