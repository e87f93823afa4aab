# Puts what the preprocessor gives on the lines of FILE: each of its tokens keeps its line, and what an `#include` brings in stands on the line of that. Names
# that begin with `front` become what they stand for in annotations.
#
# From the environment: front, line_feeds (how many FILE has).

# `source` is the line of FILE that is read, `at` the one that is written, `depth` counts the headers that are open.
BEGIN {
    ORS = ""
    front = ENVIRON["front"]
    at = 1
}

# ---- annotations

# No macro ends an annotation.
function guarded(text) {
    if (inside) gsub(/\*\//, "* /", text)
    return text
}

# Cuts a line into `pieces`, which together are the line with each mark as what it stands for.
function restore(line,    parts, count, i) {
    count = split(line, parts, front)
    pieces[count_pieces = 1] = guarded(parts[1])
    for (i = 2; i <= count; i++) {
        if (sub(/^begin/, "", parts[i])) {
            pieces[++count_pieces] = "/*@"
            inside = 1
        } else if (sub(/^end/, "", parts[i])) {
            pieces[++count_pieces] = "*/"
            inside = 0
        } else if (sub(/^backslash_/, "", parts[i])) {
            pieces[++count_pieces] = "\\"
        } else if (sub(/^hash/, "", parts[i])) {
            pieces[++count_pieces] = "#"
        }
        pieces[++count_pieces] = guarded(parts[i])
    }
}

# ---- lines of FILE

function go_to(line) {
    for (; at < line; at++) {
        print "\n"
        written = 0
    }
}

# Goes to a line that has no directive. What waits for one stands at its head.
function begin_text(line) {
    go_to(line)
    if (written) print " "
    if (waiting != "") print waiting " "
    waiting = ""
    written = 1
}

function put(line, front_text,    i) {
    begin_text(line)
    print front_text
    for (i = 1; i <= count_pieces; i++) print pieces[i]
}

# a directive, which has a line of its own
function put_directive(line, text) {
    go_to(line)
    if (written) return
    print text
    written = 1
}

# the `#include` of a header that isn't taken, in its column
function foreign(line,    words, column, text) {
    split(line, words, " ")
    for (column = 1; column < words[4]; column++) text = text " "
    return text "#include " words[5]
}

function read_line(line) {
    if (line ~ /^[ \t\r\f\v]*$/) return
    if (index(line, "#pragma " front " include ") == 1) put_directive(source, foreign(line))
    else if (line ~ /^#/) put_directive(source, line)
    else {
        restore(line)
        # A macro makes no directive.
        put(source, line ~ /^[ \t\r\f\v]*#/ ? "/**/" : "")
    }
}

# ---- headers

function read_header_line(line,    i) {
    if (line ~ /^[ \t\r\f\v]*$/) return
    if (line ~ /^#pragma eacsl stays </) stays = depth == 1 ? substr(line, length("#pragma eacsl stays ") + 1) : ""
    else if (index(line, "#pragma " front " include ") == 1) alone = alone == "" ? foreign(line) : alone
    else if (line ~ /^#/) alone = alone == "" ? line : alone
    else {
        restore(line)
        if (line ~ /^[ \t\r\f\v]*#/) folded[++count_folded] = "/**/"
        for (i = 1; i <= count_pieces; i++) folded[++count_folded] = pieces[i]
        folded[++count_folded] = " "
    }
}

# What a header brought in, on the line of its `#include`; of one whose `#include` stays, at the head of the next line that is no directive.
function end_header(line,    i) {
    if (alone != "") {
        put_directive(line, alone)
    } else if (stays != "") {
        put_directive(line, "#include " stays)
        for (i = 1; i <= count_folded; i++) waiting = waiting folded[i]
    } else if (count_folded > 0) {
        begin_text(line)
        for (i = 1; i <= count_folded; i++) print folded[i]
    }
    count_folded = 0
    alone = stays = ""
}

# ---- markers of lines: `# LINE "NAME" FLAGS`

/^# [0-9]+ "/ {
    match($0, /"[ 0-9]*$/)
    flags = substr($0, RSTART + 1) " "
    if (index(flags, " 1 ")) depth++
    if (index(flags, " 2 ") && --depth == 0) end_header($2 - 1)
    if (depth == 0) source = $2
    next
}

depth > 0 { read_header_line($0); next }

{
    read_line($0)
    source++
}

# The end of FILE keeps its line.
END {
    if (waiting != "") begin_text(at + 1)
    go_to(ENVIRON["line_feeds"] + 1)
}
