# Makes FILE and the headers of its own that it includes ready for the preprocessor, as files of the folder `room`: FILE's is `front`.0, the others `front`.1 and on.
# The ends of annotations, and what in them means something else to a preprocessor, become names that begin with `front`, which no text has.
#
# From the environment: room, front, file (a copy of FILE), path (FILE's own), shown (its name in messages), library (the folder of the library's headers).

# A preprocessor ends a line at a carriage return, too, if it isn't at the end of one.
function piece(kind, text) {
    gsub(/\r/, kind == "quoted" ? "\\r" : " ", text)
    if (kind == "open") write((ending ~ /[A-Za-z0-9_.]/ ? " " : "") front "begin ")
    else if (kind == "close") write(" " front "end ")
    else if (kind == "note") write_note(text)
    else if (mode != "remark") write(text)
}

function write(text) {
    print text > target
    if (text != "") ending = substr(text, length(text))
}

# `@` is a blank, `#` begins no directive, `\forall` is one name, `assert` is no macro, `0..n` is no number, `/*` begins no comment, and `*/` ends none.
function write_note(text,    words, count, i, at, c, last) {
    count = split(text, words, /[^A-Za-z0-9_]/)
    for (i = 1; i <= count; i++) {
        if (last == "\\") write(words[i] ~ /^[A-Za-z_]/ ? front "backslash_" : "\\")
        write(words[i] == "assert" && last != "\\" ? front "assert" : words[i])
        at += length(words[i]) + 1
        c = substr(text, at, 1)
        if (c == "@") write(" ")
        else if (c == "#") write(" " front "hash ")
        else if (c == "*" && substr(text, at + 1, 1) == "/" || c == "/" && substr(text, at + 1, 1) == "*") write(c " ")
        else if (c == "." && (last == "." && words[i] == "" || substr(text, at + 1, 1) == ".")) write(last == "." ? ". " : " .")
        else if (c != "\\") write(c)
        last = c
    }
}

# ---- directives

# where the folder of a path ends
function folder_of(path) {
    return match(path, /.*\//) ? substr(path, 1, RLENGTH) : "./"
}

function is_file(path,    line, found) {
    found = (getline line < path) >= 0
    close(path)
    return found
}

# the name in front of this mark, after as many bytes
function name_up_to(line, start, mark) {
    line = substr(line, start)
    return substr(line, 1, index(line, mark) - 1)
}

# Whether a header is there. Then it is one of the files that are made, and included by its name in the folder.
function is_made(path, name) {
    if (!(path in number_of)) {
        if (depth_of[current] >= 200 || !is_file(path)) return 0
        paths[++last_path] = path
        names[last_path] = name
        depth_of[last_path] = depth_of[current] + 1
        number_of[path] = last_path
    }
    write("#include \"" front "." number_of[path] "\"")
    return 1
}

# A header of the text's own stands beside what includes it. The preprocessor misses one that isn't there.
function write_own(line, start,    name, shown) {
    name = name_up_to(line, start, "\"")
    shown = name ~ /^\// ? name : folder_of(names[current]) name
    sub(/^\.\//, "", shown)
    if (!is_made(name ~ /^\// ? name : folder_of(current == 0 ? ENVIRON["path"] : paths[current]) name, shown) && !is_made(library "/" name, name)) {
        write("#include \"" name "\"")
    }
    return start + length(name) + 1
}

# A header of the system that the library doesn't have stays, to be refused where it stands.
function write_foreign(line, start,    name) {
    name = name_up_to(line, start, ">")
    if (!is_made(library "/" name, name)) write("#pragma " front " include " match(line, /#/) " <" name ">")
    return start + length(name) + 1
}

# The place in a line after what is written of it here. Markers of lines are blanks.
function directive(line) {
    is_define = line ~ /^[ \t\r\f\v]*#[ \t]*define[ \t]/
    if (match(line, /^[ \t\r\f\v]*#[ \t]*include[ \t]*"[^"]*"/)) {
        match(line, /"/)
        return write_own(line, RSTART + 1)
    }
    if (match(line, /^[ \t\r\f\v]*#[ \t]*include[ \t]*<[^>]*>/)) {
        match(line, /</)
        return write_foreign(line, RSTART + 1)
    }
    if (line ~ /^[ \t\r\f\v]*#[ \t]*(line[ \t]|[0-9])/) return length(line) + 1
    return 1
}

# ---- lines

function ends_in_splice(line) {
    return line ~ /\\[ \t\r\f\v]*$/
}

# Two marks that a splice divides are on one line.
function joined(line, path,    more) {
    extra = 0
    while (line ~ /[\/*]\\[ \t\r\f\v]*$/ && (getline more < path) > 0) {
        sub(/\\[ \t\r\f\v]*$/, "", line)
        line = line more
        extra++
    }
    return line
}

function escaped(name) {
    gsub(/[\001-\037\177]/, "?", name)
    gsub(/[\\"]/, "\\\\&", name)
    return name
}

function mark_file(path, name,    line, goes_on) {
    mode = "code"
    quote = ""
    write("# 1 \"" escaped(name) "\"\n")
    while ((getline line < path) > 0) {
        line = joined(line, path)
        sub(/\r+$/, "", line)
        if (mode == "code" && !goes_on) is_define = 0
        if (mode == "code" && !goes_on && line ~ /^[ \t\r\f\v]*#/) line = substr(line, directive(line))
        goes_on = ends_in_splice(line)
        lex(line, goes_on)
        # An annotation of several lines that a macro has stays in its directive.
        write(mode == "note" && is_define && !goes_on ? " \\\n" : "\n")
        for (; extra > 0; extra--) write("\n")
    }
    close(path)
    close(target)
}

BEGIN {
    ORS = ""
    room = ENVIRON["room"]
    front = ENVIRON["front"]
    library = ENVIRON["library"]
    paths[0] = ENVIRON["file"]
    names[0] = ENVIRON["shown"]
    depth_of[0] = 0
    for (current = 0; current <= last_path; current++) {
        target = room "/" front "." current
        mark_file(paths[current], names[current])
    }
}
