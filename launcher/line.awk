# Shows the line `line` of a text.

NR == line + 0 {
    sub(/\r$/, "")
    show_line(line, $0)
    exit
}
