# How a line of a text is shown: behind its number, with a caret under a column, and nothing in it that a terminal takes for a command.

BEGIN {
    width = 120
    for (i = 1; i < 256; i++) code_of[sprintf("%c", i)] = i
}

function painted(paint, words) {
    return color == "" ? words : "\033[" paint "m" words "\033[0m"
}

# the bytes of the character of UTF-8 at a place of a line, 1 for what is none or what a terminal may take for a command
function character_length(line, at,    bytes) {
    bytes = substr(line, at, 4)
    if (bytes ~ /^\302[\240-\277]|^[\303-\337][\200-\277]/) return 2
    if (bytes ~ /^\340[\240-\277][\200-\277]|^[\341-\357][\200-\277][\200-\277]/) return 3
    if (bytes ~ /^[\360-\364][\200-\277][\200-\277][\200-\277]/) return 4
    return 1
}

# The part of a line from a byte to another, as it is shown; as blanks under which nothing stands where `hidden` is asked for.
function shown(line, first, last, hidden,    at, size, one, all) {
    for (at = first; at <= last; at += size) {
        size = character_length(line, at)
        one = substr(line, at, size)
        if (one != "\t" && hidden) one = " "
        else if (one != "\t" && size == 1 && (code_of[one] < 32 || code_of[one] > 126)) one = "?"
        all = all one
    }
    return all
}

# the number of a line and what divides it from the line
function margin(number) {
    return painted("34", sprintf("%5s |", number))
}

function show_line(number, line) {
    print margin(number) " " shown(line, 1, width < length(line) ? width : length(line), 0) (width < length(line) ? ".." : "")
}

# A line with a caret under a column. Of a long line what stands round it is shown.
function show_place(number, line, column,    first, last, front) {
    sub(/\r$/, "", line)
    first = column > width ? column - width / 2 : 1
    while (first > 1 && substr(line, first, 1) ~ /[\200-\277]/) first--
    last = first + width - 1 < length(line) ? first + width - 1 : length(line)
    front = first > 1 ? ".." : ""
    print margin(number) " " front shown(line, first, last, 0) (last < length(line) ? ".." : "")
    print margin("") " " (front == "" ? "" : "  ") shown(line, first, column - 1 < last ? column - 1 : last, 1) painted("1;31", "^")
}
