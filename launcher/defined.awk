# Writes the names of the functions that a text defines.

function piece(kind, text) {
    if (kind == "code") read_code(text)
}

END {
    for (name in is_defined) print name
}
