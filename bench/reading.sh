#!/bin/bash
# Prints the time of reading annotated texts of 0.25 to 1 MiB, of statements, of declarations with initialisers, and of one struct with
# many members, in all and for each token, that of texts of 5,000 to 20,000 annotations, in all and for each annotation, and that of reading
# texts in monitored C of 0.5 to 4 MiB, in all and for each byte, with the peak memory. A text returns before its statements, so that they are read and translated, and not run. It measures through ./eacsl.
# Then, construct by construct of the grammar, the user time of a text that has as much of it as may be, and is run: bench/reading.sh --constructs [WORD]
# prints this alone, of the constructs whose names have the word.
set -euo pipefail

top=$(cd -- "$(dirname -- "${BASH_SOURCE[0]}")/.." && pwd)
scratch=$(mktemp -d)
trap 'rm -rf "$scratch"' EXIT

# builds the proved program where that is due, so that no figure is of an unproved one
"$top/eacsl" --build >&2

if [[ ${1-} == --constructs ]]; then
  shift
  python3 "$top/bench/constructs.py" "$top/eacsl" 3 "$@"
  exit
fi

python3 - "$top/eacsl" "$scratch" <<'P'
import os, subprocess, sys

program, scratch = sys.argv[1:]
RUNS = 3


def figures(command, text):
    """The processor time of reading a text, the best of some runs, and the peak memory in KiB."""
    path = os.path.join(scratch, "text.c")
    with open(path, "w") as file:
        file.write(text)
    best = None
    for _ in range(RUNS):
        run = subprocess.Popen([program, command, path], stdin=subprocess.DEVNULL, stdout=subprocess.DEVNULL, stderr=subprocess.PIPE)
        said = run.stderr.read()
        _, status, usage = os.wait4(run.pid, 0)
        if status != 0 or said != b"eacsl: exit 0\n":
            sys.exit(f"a text of {len(text)} bytes: {said.decode()}")
        time = usage.ru_utime + usage.ru_stime
        best = time if best is None else min(best, time)
        memory = usage.ru_maxrss
    return best, memory


def table(command, least, unit, texts):
    """A row of figures for each text, by its name, with the time for each of its units."""
    start, _ = figures(command, least)
    print(f"{command:<14} {'bytes':>8} {'seconds':>9} {'ns a ' + unit:>11} {'peak (KiB)':>11}")
    for name, units, text in texts:
        time, memory = figures(command, text)
        print(f"{name:<14} {len(text):>8} {time:>9.3f} {(time - start) / units * 1e9:>11.0f} {memory:>11}")
    print(f"the start of the program takes {start:.3f} s, which each figure a {unit} leaves out")


MOST_TOKENS = 200_000


def filled(size, head, line, tail, outer, inner):
    """A text of so many bytes with as many lines as fit, each with its number, between a head and a tail, and the number of its tokens,
    of which head and tail have some and each line some."""
    lines, left = [], size - len(head) - len(tail)
    while outer + (len(lines) + 1) * inner <= MOST_TOKENS:
        numbered = line.format(len(lines))
        left -= len(numbered)
        if left < 0:
            break
        lines.append(numbered)
    text = head + "".join(lines) + tail
    return f"{size >> 10} KiB", outer + len(lines) * inner, text + " " * (size - len(text))


def annotated(size):
    """A text of statements and an assert."""
    head = "int main(void) {\n  unsigned int total = 0, count = 1;\n  /*@ assert total < count; */\n  return 0;\n"
    line = "  total = (unsigned char)(total * 3 + 0x1f) ^ count << 2; // the next one of them\n"
    return filled(size, head, line, "}\n", 27, 18)


def declared(size):
    """A text of declarations at file scope."""
    lines = "int table{0}[4] = {{1, {0}, 3}};\nstruct pair{0} {{ char *name; long value; }};\ntypedef struct pair{0} *link{0};\nlink{0} last{0} = 0;\n"
    return filled(size, "", lines, "int main(void) { return 0; }\n", 10, 37)


def membered(size):
    """A text of one struct with many members."""
    tail = "};\nint main(void) { struct wide w; w.member0 = 0; return w.member0; }\n"
    return filled(size, "struct wide {\n", "  int member{0};\n", tail, 28, 3)


def asserted(count):
    """A text of so many annotations, which is read, typed and given ranges, and of which a run comes to the first alone."""
    line = "  /*@ assert i * i > 0; */\n"
    head = "int main(void) {\n  int i = 1;\n" + line + "  return 0;\n"
    lines = line * (count - 1)
    return f"{count} asserts", count, head + lines + "}\n"


def long_asserted(count):
    """The same of longer annotations, fewer, so that the text has no more tokens than one may have."""
    line = "  /*@ assert 0 <= i < 10 && (i & 1) == i % 2 ==> i * i / 3 >= i >> 1; */\n"
    head = "int main(void) {\n  int i = 1;\n" + line + "  return 0;\n"
    lines = line * (count - 1)
    return f"{count} asserts", count, head + lines + "}\n"


HEAD = "#include <e_acsl.h>\ni32 main(void) {\n  i32 x;\n  return I32(0);\n"
LINE = "  x = (x + I32(1));\n"


def monitored(size):
    """A text of at most so many bytes, and nearly as many."""
    text = HEAD + LINE * ((size - len(HEAD) - 2) // len(LINE)) + "}\n"
    return f"{size >> 10} KiB", len(text), text


table("run", "int main(void) { return 0; }\n", "token", map(annotated, (1 << 18, 1 << 19, 1 << 20)))
print()
table("run", "int main(void) { return 0; }\n", "token", map(declared, (1 << 18, 1 << 19, 1 << 20)))
print()
table("run", "int main(void) { return 0; }\n", "token", map(membered, (1 << 18, 1 << 19, 1 << 20)))
print()
table("run", "int main(void) { return 0; }\n", "assert", map(asserted, (5_000, 10_000, 20_000)))
print()
table("run", "int main(void) { return 0; }\n", "assert", map(long_asserted, (1_250, 2_500, 5_000)))
print()
table("exec", HEAD + "}\n", "byte", map(monitored, (1 << 19, 1 << 20, 1 << 21, 1 << 22)))
P

echo
python3 "$top/bench/constructs.py" "$top/eacsl" 3
