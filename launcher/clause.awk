# Shows the clause with the number `wanted` of a text, with its lines and the function that it stands in or whose contract has it, if its line is the one that was told;
# or says, where 0 is wanted, that the text has no annotation. Clauses are counted in the order of the text, and each ends at a `;` that doesn't end the binders of a
# quantifier. Those with `assigns` have no number, and the `behavior NAME:` in front of some is none.

BEGIN {
    binders = "\\\\(forall|exists)[ \t\r\f\v@][A-Za-z0-9_, \t\r\f\v@]*;$"
    assigns = "^[ \t\r\f\v@]*(loop[ \t\r\f\v@]+)?assigns([^A-Za-z0-9_]|$)"
}

function piece(kind, text) {
    if (kind == "open" || kind == "close") clause = due = behavior = ""
    else if (kind == "note" || kind == "quoted" && mode != "code") read_note(kind, text)
    else if (kind == "code") {
        read_code(text)
        if (is_shown && next_name != "") end_shown("in " (shown_behavior == "" ? "" : "the behavior `" shown_behavior "` of ") "the contract of `" next_name "`")
    }
}

function read_note(kind, text,    end) {
    while (kind == "note" && (end = index(text, ";")) > 0) {
        add(substr(text, 1, end))
        text = substr(text, end + 1)
        if (clause ~ binders) continue
        if (clause ~ assigns) number--
        else if (number == wanted + 0 && clause != "") finish()
        clause = ""
    }
    add(text)
}

# A clause begins with the first byte that is no blank.
function add(text) {
    if (clause == "") {
        text = behind_behaviors(text)
        if (text == "") return
        number++
        first = FNR
        lines = 0
        if (text ~ /^(complete|disjoint)([^A-Za-z0-9_]|$)/) behavior = ""
    }
    clause = clause " " text
    while (lines < FNR - first + 1) part[++lines] = ""
    part[lines] = part[lines] text
}

# What is left of the begin of a clause behind blanks and `behavior NAME:`, of which `due` is the part that the next line goes on with.
function behind_behaviors(text) {
    for (;;) {
        sub(/^[ \t\r\f\v@]+/, "", text)
        if (text == "") return ""
        if (wanted == 0) {
            number = 1
            exit
        }
        if (due == "" && text ~ /^behavior([^A-Za-z0-9_]|$)/) {
            due = "name"
            text = substr(text, length("behavior") + 1)
        } else if (due == "name" && match(text, /^[A-Za-z0-9_]+/)) {
            due = ":"
            behavior = substr(text, 1, RLENGTH)
            text = substr(text, RLENGTH + 1)
        } else if (due == ":") {
            due = ""
            text = substr(text, 2)
        } else {
            return text
        }
    }
}

# The function of a contract is the next one that is declared.
function finish(    i) {
    if (first != told + 0) exit
    for (i = 1; i <= lines; i++) {
        sub(/[ \t\r\f\v]+$/, "", part[i])
        show_line(first + i - 1, part[i])
    }
    if (function_name != "") end_shown("in the function `" function_name "`")
    is_shown = 1
    shown_behavior = behavior
    next_name = ""
    wanted = -1
}

function end_shown(place) {
    print place
    exit
}

END {
    if (wanted == 0 && number == 0) print "the text has no annotation"
}
