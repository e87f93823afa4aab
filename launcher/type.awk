# Says which name stands where a type is wanted, if that is why the word `word` at `line`:`column` can't stand there: a name in front of another name, in
# parentheses in front of an operand, or where a declaration begins.

BEGIN {
    count = split("auto break case char const continue default do double else enum extern float for goto if inline int long register restrict " \
        "return short signed sizeof static struct switch typedef union unsigned void volatile while _Bool _Complex _Imaginary", keywords, " ")
    for (i = 1; i <= count; i++) is_keyword[keywords[i]] = 1
}

function is_name(token) {
    return token ~ /^[A-Za-z_]/ && !(token in is_keyword)
}

function token(text) {
    before[4] = before[3]
    before[3] = before[2]
    before[2] = before[1]
    before[1] = text
}

function piece(kind, text,    words, count, i, at, c) {
    if (kind == "open" || kind == "close" || kind == "quoted") token("..")
    if (kind != "code" && kind != "note") return
    count = split(text, words, /[^A-Za-z0-9_]/)
    at = 0
    for (i = 1; i <= count; i++) {
        at += length(words[i]) + 1
        if (words[i] != "") token(words[i])
        c = substr(text, at, 1)
        if (c !~ /[ \t\r\f\v@]/ && c != "") token(c)
    }
}

# the name in parentheses in front, perhaps with a star, that is cast to
function cast_name() {
    if (before[1] == ")" && before[3] == "(" && is_name(before[2]) && (before[4] == "return" || before[4] !~ /^[A-Za-z0-9_)\]]/)) return before[2]
    return ""
}

function wanted_type() {
    if (word == ")" && before[1] == "*" && before[3] == "(" && is_name(before[2])) return before[2]
    if (word !~ /^[A-Za-z0-9_]/ || word in is_keyword) return ""
    if (cast_name() != "") return cast_name()
    if (mode != "code" || !is_name(word)) return ""
    if (is_name(before[1])) return before[1]
    if (before[1] ~ /^([(,;{}]|const|static|typedef)?$/) return word
    return ""
}

NR == line + 0 {
    lex(substr($0, 1, column - 1), 1)
    print wanted_type()
    exit
}
