# Tells in which function a text is: `read_code(text)`, called for each piece of code in its order, keeps its name in `function_name`, and in `is_defined` the names
# of all functions so far. A function is what has, at depth 0, a name, parentheses and a brace. `next_name` is the first name with parentheses at depth 0 since
# it was made empty. `call_line` has the `calls` lines in which the function `watched` is called.

function read_code(text,    words, count, i, at, c) {
    count = split(text, words, /[^A-Za-z0-9_]/)
    at = 0
    for (i = 1; i <= count; i++) {
        at += length(words[i]) + 1
        if (words[i] != "") last = words[i]
        c = substr(text, at, 1)
        if (c !~ /[ \t\r\f\v]/ && c != "") read_mark(c)
    }
}

function read_mark(c) {
    if (c == "(" && depth == 0 && open_parentheses++ == 0) {
        declared = last
        if (next_name == "") next_name = last
    } else if (c == "(" && depth > 0 && last == watched) {
        if (calls == 0 || call_line[calls] != FNR) call_line[++calls] = FNR
    } else if (c == ")" && depth == 0) open_parentheses--
    else if (c == "{" && depth++ == 0 && last == ")") is_defined[function_name = declared] = 1
    else if (c == "}" && --depth == 0) function_name = ""
    last = c
}
