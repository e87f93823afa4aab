# Shows the place `line`:`column` of a text.

NR == line + 0 {
    show_place(line, $0, column)
    found = 1
    exit
}

# The end of a text stands after its last line.
END {
    if (!found) show_place(line, "", column)
}
