"""Prints what a text takes that has as much of one construct of the grammar as fits into 1 MiB and 200,000 tokens: for each construct the bytes,
the tokens and the user time of reading, translating and running it, the least of some runs, after the same of a text of half as much.

    constructs.py PROGRAM RUNS [WORD]

With a word only the constructs whose names have it.
"""
import os, re, resource, subprocess, sys, tempfile

program, runs, *words = sys.argv[1:]
BYTES, TOKENS = 1 << 20, 200_000

PIECE = re.compile(
    r"(?P<blank>\s+|/\*(?!@).*?\*/|//(?!@)[^\n]*|^[ \t]*\#[^\n]*)"
    r"|/\*@|//@|\*/|(?:\"(?:\\.|[^\"\\])*\"\s*)+|'(?:\\.|[^'\\])*'|\\?\w+"
    r"|<==>|==>|<<=|>>=|\^\^|->|\+\+|--|<<|>>|[<>=!]=|&&|\|\||[-+*/%&|^]=|.",
    re.S | re.M,
)


def count(text):
    return sum(1 for piece in PIECE.finditer(text) if piece["blank"] is None)


def filled(share, head, line, tail):
    """As many lines as fit between a head and a tail, each with its number and that of the line before it."""
    room, left = BYTES // share - len(head) - len(tail), TOKENS // share - count(head) - count(tail) - 1
    of_line, lines = count(line.format(1, 0)), []
    while left >= of_line:
        one = line.format(len(lines) + 1, len(lines))
        if room < len(one):
            break
        room, left = room - len(one), left - of_line
        lines.append(one)
    return head + "".join(lines) + tail


MAIN = "int main(void) { return 0; }\n"
BODY = "int main(void) {\n  int x = 1, y = 2, *p = &x, a[4] = {1, 2, 3, 4};\n"
END = "  return 0;\n}\n"
NAME = "n" * 240


def outside(line, head="", tail=MAIN):
    """Declarations at file scope."""
    return head, line, tail


def inside(line, head=""):
    """Statements of `main`, which are run."""
    return head + BODY, line, END


def listed(head, line, tail):
    return head, line, tail + MAIN


def nested(begin, inner, end, depth):
    return begin * depth + inner + end * depth + "\n"


def twice(head, first, between, second, tail):
    """Half of a text declares, and half of it uses what is declared."""

    def text(share):
        declared = filled(2 * share, head, first, "")
        lines = declared[len(head):].count("\n")
        uses = [second.format(n + 1, n) for n in range(lines)]
        while uses and (len(declared) + sum(map(len, uses)) + len(between) + len(tail) > BYTES // share
                        or count(declared) + count(uses[-1]) * len(uses) + count(between + tail) >= TOKENS // share):
            del uses[-max(1, len(uses) // 20):]
        return declared + between + "".join(uses) + tail

    return text


def contracted(line, head="", first=""):
    """Clauses of one contract, whose function is called."""
    return head + "/*@" + first, line, "*/\nint f(int n) { return n; }\nint main(void) { f(1); return 0; }\n"


def covered(behavior, cover):
    """Behaviors of one contract, and as many clauses about them."""
    head, _, tail = contracted("")
    return twice(head, behavior, "", cover, tail)


def long_expression(operand, operator, tokens=390):
    each = count(operand) + count(operator)
    return (" " + operator + " ").join([operand] * (tokens // each))


CONSTRUCTS = {
    # ---- what a file declares
    "objects": outside("int g{0};\n"),
    "objects with values": outside("int g{0} = {0};\n"),
    "objects of one declaration": listed("int g0", ", g{0}", ";\n"),
    "arrays": outside("int g{0}[3];\n"),
    "pointers to objects": outside("int *g{0} = &g;\n", "int g;\n"),
    "pointers to the object before": outside("void *g{0} = &g{1};\n", "void *g0;\n"),
    "pointers behind an object": outside("int *g{0} = &g + 1;\n", "int g;\n"),
    "pointers to an element": outside("int *g{0} = g + 1;\n", "int g[3];\n"),
    "pointers to a member": outside("int *g{0} = &g.m;\n", "struct s { int a; int m; } g;\n"),
    "pointers that are 0": outside("int *g{0} = 0;\n"),
    "pointers that are NULL": outside("int *g{0} = NULL;\n", "#include <stddef.h>\n"),
    "names of types": outside("typedef int t{0};\n"),
    "names of types, each used": outside("typedef int t{0};\nt{0} g{0};\n"),
    "names of types, by the one before": outside("typedef t{1} t{0};\n", "typedef int t0;\n"),
    "one name of a type, used": outside("t g{0};\n", "typedef int t;\n"),
    "tags of structs": outside("struct s{0} {{ int m; }};\n"),
    "tags of structs, each used": outside("struct s{0} {{ int m; }};\nstruct s{0} g{0};\n"),
    "tags of structs, by the one before": outside("struct s{0} {{ struct s{1} *p; }};\n", "struct s0 { int m; };\n"),
    "tags that no file defines": outside("struct s{0} *g{0};\n"),
    "structs of no tag": outside("struct {{ int m; }} g{0};\n"),
    "tags of enums": outside("enum e{0} {{ A{0} }};\n"),
    "tags of enums, each used": outside("enum e{0} {{ A{0} }};\nenum e{0} g{0};\n"),
    "enumerators": listed("enum e { A0", ", A{0}", "};\n"),
    "enumerators with values": listed("enum e { A0 = 0", ", A{0} = A{1} + 1", "};\n"),
    # ---- members
    "members": listed("struct s {\n", "int m{0};\n", "} g;\n"),
    "members of one declaration": listed("struct s { int m0", ", m{0}", "; } g;\n"),
    "members that are arrays": listed("struct s {\n", "char m{0}[3];\n", "} g;\n"),
    "members that are structs": listed("struct s {\n", "struct {{ int a; }} m{0};\n", "} g;\n"),
    "members that are enums": listed("struct s {\n", "enum {{ A{0} }} m{0};\n", "} g;\n"),
    "members, each assigned": twice("struct s {\n", "int m{0};\n", "} g;\nint main(void) {\n", "g.m{0} = 0;\n", END),
    "members, each with a value": twice("struct s { int m0;\n", "int m{0};\n", "} g = { 0", ",\n{0}", " };\n" + MAIN),
    # ---- initialisers
    "items": listed("int g[] = { 0", ", {0}", " };\n"),
    "items in a function": ("int main(void) {\n  int g[] = { 0", ", {0}", " };\n" + END),
    "items in braces": listed("int g[][1] = { { 0 }", ", {{ {0} }}", " };\n"),
    "items that are structs": listed("struct s { int a; char b; };\nstruct s g[] = { { 0, 0 }", ", {{ {0}, 1 }}", " };\n"),
    "items that are strings": listed('char *g[] = { "0"', ', "{0}"', " };\n"),
    "items that are addresses": listed("int a;\nint *g[] = { &a", ", &a", " };\n"),
    "items that are characters": listed("char g[] = { 'a'", ", 'b'", " };\n"),
    "lists in lists": outside("int g{0}" + "[1]" * 60 + " = " + "{{" * 60 + "{0}" + "}}" * 60 + ";\n"),
    "a string": listed('char g[] = "', "abcdefghijklmnop", '";\n'),
    "a string of escapes": listed('char g[] = "', "\\x41\\n", '";\n'),
    "strings in a row": listed('char g[] = "a"', ' "b"', ";\n"),
    # ---- functions
    "prototypes": outside("int f{0}(int a);\n"),
    "prototypes of one name": outside("int f(int a);\n"),
    "functions": outside("int f{0}(void) {{ return 0; }}\n"),
    "functions, each called": twice("", "int f{0}(void) {{ return {0}; }}\n", "int main(void) {\n", "f{0}();\n", END),
    "parameters": listed("int f(int a0", ", int a{0}", ");\n"),
    "parameters of a definition": listed("int f(int a0", ", int a{0}", ") { return 0; }\n"),
    # ---- statements
    "calls": inside("f(x);\n", "int f(int a) { return a; }\n"),
    "calls for a value": inside("y = f(x);\n", "int f(int a) { return a; }\n"),
    "arguments": inside("f(" + ", ".join(["x"] * 190) + ");\n", "int f(" + ", ".join(["int"] * 190) + ") { return 0; }\n"),
    "assignments": inside("x = y;\n"),
    "compound assignments": inside("x ^= y;\n"),
    "steps": inside("x++;\n"),
    "assignments of structs": inside("u = v;\n", "struct s { int a; char b[3]; } u, v;\n"),
    "empty statements": inside(";\n"),
    "blocks": inside("{{ x = 1; }}\n"),
    "blocks in blocks": inside(nested("{{", "x = 1;", "}}", 190)),
    "objects in a function": inside("int z{0};\n"),
    "objects in blocks": inside("{{ int z = {0}; }}\n"),
    "objects that hide others": inside(nested("{{ int z = 1; ", "", "}}", 190)),
    "if": inside("if (x) y = 1;\n"),
    "if with else": inside("if (x) y = 1; else y = 2;\n"),
    "else if": inside(nested("if (y) x = 1; else ", ";", "", 180)),
    "while": inside("while (0) x = 1;\n"),
    "do": inside("do x = 1; while (0);\n"),
    "for": inside("for (y = 0; y < 1; y++) x = 1;\n"),
    "for with an object": inside("for (int i = 0; i < 1; i++) x = i;\n"),
    "loops in loops": inside(nested("while (x) ", "x = 0;", "", 180) + "x = 1;\n"),
    "break": inside("while (1) break;\n"),
    "continue": inside("do continue; while (0);\n"),
    "return": outside("int f{0}(void) {{ return {0}; }}\n"),
    "cases": (BODY + "switch (x) {\n", "case {0}:\n", "}\n" + END),
    "cases with statements": (BODY + "switch (x) {\n", "case {0}: y = 1;\n", "}\n" + END),
    "switch": inside("switch (x) {{ case 1: y = 1; break; default: y = 2; }}\n"),
    "switches in switches": inside(nested("switch (x) {{ case 1: ", "y = 1;", "}}", 180)),
    # ---- expressions
    "sums": inside("x = " + long_expression("1", "+") + ";\n"),
    "products of sums": inside("x = " + long_expression("(y + 1)", "&") + ";\n"),
    "comparisons": inside("x = " + long_expression("y", "<") + ";\n"),
    "&& and ||": inside("x = " + long_expression("y", "&&") + ";\n"),
    "?:": inside("x = " + "y ? 1 : " * 90 + "2;\n"),
    "parentheses": inside("x = " + "(" * 190 + "y" + ")" * 190 + ";\n"),
    "unary operators": inside("x = " + "-" + " -" * 300 + "y;\n"),
    "casts": inside("x = " + "(int)" * 120 + "y;\n"),
    "sizeof": inside("x = " + "sizeof " * 300 + "y;\n"),
    "commas": inside(long_expression("x", ",") + ";\n"),
    "assignments of assignments": inside("x = " * 190 + "y;\n"),
    "steps in expressions": inside("x = " + long_expression("y++", "&") + ";\n"),
    "calls in expressions": inside("x = " + long_expression("f(y)", "&") + ";\n", "int f(int a) { return a; }\n"),
    "calls in calls": inside("x = " + "f(" * 120 + "y" + ")" * 120 + ";\n", "int f(int a) { return a; }\n"),
    "assignments under &&": inside("x = " + long_expression("(y = 1)", "&&") + ";\n"),
    "assignments under ?:": inside("x = " + "y ? (x = 1) : " * 40 + "2;\n"),
    "elements": inside("x = " + long_expression("a[1]", "|") + ";\n"),
    "elements of elements": inside("x = " + "a[" * 75 + "0" + " & 3]" * 75 + ";\n"),
    "targets": inside("x = " + long_expression("*p", "|") + ";\n"),
    "addresses": inside("p = " + "&*" * 150 + "p;\n"),
    "members of members": inside("x = " + long_expression("w.u.m", "|") + ";\n", "struct t { struct { int m; } u; } w;\n"),
    "characters": inside("x = " + long_expression("'a'", "|") + ";\n"),
    "constants of the library": inside("x = " + long_expression("INT_MAX", "&") + ";\n", "#include <limits.h>\n"),
    # ---- annotations
    "assert": inside("/*@ assert x > 0; */\n"),
    "assert in a line": inside("//@ assert x > 0;\n"),
    "asserts of one annotation": (BODY + "/*@", " assert x > 0;\n", "*/\n" + END),
    "asserts of sums": inside("/*@ assert 0 < " + long_expression("x", "+", 380) + "; */\n"),
    "asserts of &&": inside("/*@ assert " + long_expression("0 < x", "&&", 380) + "; */\n"),
    "asserts of ==>": inside("/*@ assert " + long_expression("0 < x", "==>", 380) + "; */\n"),
    "asserts of chains": inside("/*@ assert " + long_expression("0", "<=", 380) + "; */\n"),
    "asserts of parentheses": inside("/*@ assert " + "(" * 180 + "x > 0" + ")" * 180 + "; */\n"),
    "asserts of casts": inside("/*@ assert " + "(int)" * 120 + "x > 0; */\n"),
    "asserts of !": inside("/*@ assert " + "!" * 180 + "\\true; */\n"),
    "asserts of ?:": inside("/*@ assert " + "x < 0 ? \\false : " * 60 + "\\true; */\n"),
    "asserts of sizeof": inside("/*@ assert 0 < " + long_expression("sizeof(int)", "+", 380) + "; */\n"),
    # ---- contracts
    "contracts": outside("/*@ requires n > 0; ensures \\result == n; */ int f{0}(int n) {{ return n; }}\n"),
    "contracts, each checked": twice("", "/*@ requires n > 0; ensures \\result == n; */ int f{0}(int n) {{ return n; }}\n", "int main(void) {\n", "f{0}(1);\n", END),
    "contracts of prototypes": outside("/*@ requires n > 0; */ int f{0}(int n);\n"),
    "requires": contracted(" requires n > 0;\n"),
    "ensures": contracted(" ensures \\result > 0;\n"),
    "parameters in ensures": contracted(" ensures n > 0;\n"),
    "\\old": contracted(" ensures \\old(g) == 0;\n", head="int g;\n"),
    "\\old of sums": contracted(" ensures 0 == " + long_expression("\\old(g)", "+", 380) + ";\n", head="int g;\n"),
    "\\old of a pointer": contracted(" ensures \\old(p) == p;\n", head="int a, *p = &a;\n"),
    "\\old of a target": contracted(" ensures \\old(*p) == 0;\n", head="int a, *p = &a;\n"),
    "behaviors": contracted(" behavior b{0}:\n"),
    "behaviors with assumes": contracted(" behavior b{0}: assumes n > 0;\n"),
    "behaviors with clauses": contracted(" behavior b{0}: assumes n > 0; requires n < 5; ensures \\result == 1;\n"),
    "assumes of one behavior": contracted(" assumes n > 0;\n", first=" behavior b:"),
    "complete behaviors": contracted(" complete behaviors;\n", first=" behavior b:"),
    "disjoint behaviors": contracted(" disjoint behaviors;\n", first=" behavior b:"),
    "behaviors, and as many complete": covered(" behavior b{0}:\n", " complete behaviors;\n"),
    "behaviors, each complete": covered(" behavior b{0}:\n", " complete behaviors b{0};\n"),
    "behaviors that are named": contracted(" complete behaviors " + ", ".join(["b"] * 190) + ";\n", first=" behavior b:"),
    # ---- quantifiers
    "quantifiers": inside("/*@ assert \\forall integer i; 0 <= i < 3 ==> i < 3; */\n"),
    "quantifiers over an array": inside("/*@ assert \\forall integer i; 0 <= i < 3 ==> a[i] <= a[i + 1]; */\n"),
    "quantifiers of one assert": inside("/*@ assert " + long_expression("(\\forall integer i; 0 <= i < 3 ==> i < 3)", "&&", 380) + "; */\n"),
    "quantifiers in quantifiers": inside("/*@ assert " + nested("\\forall integer i; 0 <= i < 1 ==> ", "\\true", "", 38).strip() + "; */\n"),
    "binders": inside("/*@ assert \\forall integer " + ", ".join(f"i{n}" for n in range(90)) + "; 0 <= " + " <= ".join(f"i{n}" for n in range(90)) + " <= 0 ==> \\true; */\n"),
    "guards of many chains": inside(
        "/*@ assert \\forall integer " + ", ".join(f"i{n}" for n in range(40)) + "; " + " && ".join(f"0 <= i{n} < 1" for n in range(40)) + " ==> \\true; */\n"
    ),
    "hypotheses": inside("/*@ assert \\forall integer i; 0 <= i < 3 && " + long_expression("i >= 0", "&&", 370) + " ==> \\true; */\n"),
    "binders of a type of C": inside("/*@ assert \\exists unsigned char i; -3 <= i < 300 && i == 0; */\n"),
    # ---- annotations of loops
    "invariants": inside("/*@ loop invariant x == 1; */ while (0) ;\n"),
    "invariants and variants": inside("/*@ loop invariant x == 1; loop variant x; */ while (0) ;\n"),
    "invariants of one loop": (BODY + "/*@", " loop invariant x == 1;\n", "*/ while (0) ;\n" + END),
    "invariants of a for": inside("/*@ loop invariant i <= 1; loop variant 1 - i; */ for (int i = 0; i < 1; i++) ;\n"),
    "invariants of loops in loops": inside(nested("/*@ loop invariant x <= 1; */ while (x) ", "x = 0;", "", 60) + "x = 1;\n"),
    "loop assigns": inside("/*@ loop assigns x, y; */ while (0) ;\n"),
    "loop assigns of one loop": (BODY + "/*@", " loop assigns x;\n", "*/ while (0) ;\n" + END),
    "assigns": contracted(" assigns n;\n"),
    "a list of assigns": inside("/*@ loop assigns " + ", ".join(["x"] * 190) + "; */ while (0) ;\n"),
    # ---- labels
    "labels": inside("L{0}: ;\n"),
    "terms at labels": inside("L{0}: ; /*@ assert \\at(x, L{0}) == 1; */\n"),
    "terms at one label": (BODY + "L: ;\n", "/*@ assert \\at(x, L) == 1; */\n", END),
    "terms at the beginning": inside("/*@ assert \\at(g, Pre) == 0; */\n", "int g;\n"),
    "pointers at labels": inside("L{0}: ; /*@ assert \\at(p, L{0}) == p; */\n"),
    "labels in loops": inside("while (x) {{ L{0}: x = 0; /*@ assert \\at(x, L{0}) == 1; */ }} x = 1;\n"),
    # ---- what is between tokens, and words
    "comments": outside("/* c */\n"),
    "a comment": listed("/*", "abcdefghijklmnop", "*/\n"),
    "comments to the end of the line": outside("// c\n"),
    "blanks": outside("                "),
    "lines": outside("\n"),
    "annotations without tokens": outside("/*@ */\n"),
    "directives": outside("#include <stdio.h>\n"),
    "line markers": outside('# {0} "f.c"\n'),
    "names of 255 bytes": outside("int " + NAME + "{0:015d};\n"),
    "a name of 255 bytes, used": inside(NAME + "123456789012345 = 1;\n", "int " + NAME + "123456789012345;\n"),
    "a number of many digits": listed("int g = 0", "0000000000000000", ";\n"),
    "numbers": inside("x = 2147483647;\n"),
}


def text_of(construct, share):
    return construct(share) if callable(construct) else filled(share, *construct)


def user_time(path):
    """The least user time of some runs, of which one has a minute."""
    best = None
    for _ in range(int(runs)):
        run = subprocess.Popen(
            [program, "run", path],
            stdin=subprocess.DEVNULL,
            stdout=subprocess.DEVNULL,
            stderr=subprocess.PIPE,
            preexec_fn=lambda: resource.setrlimit(resource.RLIMIT_CPU, (60, 60)),
        )
        said = run.stderr.read().decode().strip()
        _, status, usage = os.wait4(run.pid, 0)
        if os.waitstatus_to_exitcode(status) != 0 or said != "eacsl: exit 0":
            return None, said or "more than a minute"
        best = usage.ru_utime if best is None else min(best, usage.ru_utime)
    return best, ""


def shown(time):
    return "-" if time is None else f"{time:.2f}"


print(f"{'construct':<38} {'bytes':>8} {'tokens':>7} {'half, s':>8} {'user, s':>8}", flush=True)
worst, refused = 0.0, 0
with tempfile.TemporaryDirectory() as scratch:
    path = os.path.join(scratch, "text.c")
    for name, construct in CONSTRUCTS.items():
        if words and not any(word in name for word in words):
            continue
        times = []
        for share in (2, 1):
            text = text_of(construct, share)
            with open(path, "w") as file:
                file.write(text)
            time, said = user_time(path)
            times.append(time)
        print(f"{name:<38} {len(text):>8} {count(text):>7} {shown(times[0]):>8} {shown(times[1]):>8} {said}", flush=True)
        if times[1] is None:
            refused += 1
        else:
            worst = max(worst, times[1])
print(f"the longest takes {worst:.2f} s; of {refused} there is no figure")
