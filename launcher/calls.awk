# Writes the numbers of the lines in which the function `watched` is called.

function piece(kind, text) {
    if (kind == "code") read_code(text)
}

END {
    for (i = 1; i <= calls; i++) print call_line[i]
}
