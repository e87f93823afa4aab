# Cuts C with annotations into pieces, line by line: `lex(line)` calls `piece(kind, text)`, which another file defines, for each in its order.
#
#   code, note     what stands outside of annotations, and inside
#   quoted         a string or a character, in both
#   open, close    the ends of an annotation
#   comment        in both
#
# Pieces of one kind may follow each other, but a quoted one is whole within its line.

# `mode` is what the end of a line leaves open: code, block (a comment), note (an annotation), and within a line besides line (a comment), line-note,
# and remark (a comment in an annotation, whose mode is `outer`).
BEGIN { mode = "code"; quote = "" }

function kind_now() {
    if (quote != "") return "quoted"
    if (mode == "note" || mode == "line-note") return "note"
    return mode == "code" ? "code" : "comment"
}

# the piece from the end of the last one to in front of a place
function cut(kind, to) {
    if (to > from) piece(kind, substr(cut_line, from, to - from))
    from = to
}

# Does what a quote, a slash, a star or a backslash at a place stands for, given it with one and with two bytes more.
function at_mark(at, c, two, three) {
    if (two == "*/" && (mode == "block" || mode == "note" || mode == "remark" && outer == "note")) {
        if (mode == "block") {
            cut("comment", at + 2)
        } else {
            cut(kind_now(), at)
            piece("close", two)
            from = at + 2
        }
        mode = "code"
        quote = ""
        free = at + 2
    } else if (mode == "block" || mode == "line" || mode == "remark") {
        return
    } else if (quote != "") {
        if (c == "\\" && !(mode == "note" && substr(cut_line, at + 1, 2) == "*/")) {
            free = at + 2
        } else if (c == quote) {
            cut("quoted", at + 1)
            quote = ""
        }
    } else if (c == "\"" || c == "'") {
        cut(kind_now(), at)
        quote = c
    } else if (mode == "code" && (three == "/*@" || three == "//@")) {
        cut("code", at)
        piece("open", three)
        mode = three == "/*@" ? "note" : "line-note"
        from = free = at + 3
    } else if (two == "//" || two == "/*" && mode == "code") {
        cut(kind_now(), at)
        outer = mode
        mode = two == "/*" ? "block" : (mode == "code" ? "line" : "remark")
        free = at + 2
    }
}

# Cuts a line. One that goes on, by a splice, leaves open what is open at its end.
function lex(line, goes_on,    parts, count, i, at) {
    cut_line = line
    from = free = 1
    at = 0
    count = split(line, parts, /["'*\/\\]/)
    for (i = 1; i < count; i++) {
        at += length(parts[i]) + 1
        if (at >= free) at_mark(at, substr(line, at, 1), substr(line, at, 2), substr(line, at, 3))
    }
    cut(kind_now(), length(line) + 1)
    if (!goes_on) end_line()
}

function end_line() {
    quote = ""
    if (mode == "line-note" || mode == "remark" && outer == "line-note") piece("close", "")
    if (mode == "remark" && outer == "note") mode = "note"
    else if (mode != "block" && mode != "note") mode = "code"
}
