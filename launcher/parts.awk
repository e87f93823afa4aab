# Shortens a long function of C++, whose lines native.awk gives. A part is statements in a row, up to one that ends what a statement is translated to. Parts
# that differ only in registers and numbers become calls of one function, which has the registers by reference and the numbers as a row. Such calls in turn, of
# the same registers, become a loop over a table of rows. So each statement is done in its order, as it would be.
#
# Outside `while` a statement is done once in a call at most. So a register that is nowhere but in one part outside is 0 where that begins, and it becomes a
# variable of the part's function.

BEGIN {
    least_uses = 8
    most_part_lines = 60
    # of the types of native.awk
    for (type in is_type) if (type != "ptr") number_type[toupper(type)] = type
}

# ---- the parts of a function, by their lines

function begin_part(line) {
    if (part) return
    part = line
    part_depth = depth
}

# Ends the part that is open, if one is. Where it would end within an `if` there is none.
function end_part(line) {
    if (part && depth == part_depth && line >= part) {
        first[++part_count] = part
        last[part_count] = line
        is_once[part_count] = !loop_depth
    }
    part = 0
}

function begin_body(line) {
    depth++
    if (line ~ /^while / && !loop_depth) loop_depth = depth
}

function end_body(i) {
    if (depth == part_depth) end_part(i - 1)
    if (depth == loop_depth) loop_depth = 0
    depth--
}

function find_parts(    i, line) {
    part_count = part = depth = loop_depth = 0
    for (i = 1; i <= line_count; i++) {
        line = lines[i]
        if (part && i - part >= most_part_lines) end_part(i - 1)
        if (line == "}") {
            end_body(i)
        } else if (line ~ /^(if |else )/) {
            if (line != "else {") begin_part(i)
            begin_body(line)
        } else if (line ~ /\{$/) {
            end_part(i - 1)
            begin_body(line)
        } else if (line ~ /^(goto|return|label_|Call|__e_acsl_print_text)| = \{\};$/) {
            end_part(i - 1)
        } else {
            begin_part(i)
            if (depth == part_depth && line ~ /^__e_acsl_(assert|initialize|initialize_ptr|copy) /) end_part(i)
        }
    }
}

# the pieces of a line, with its `;` apart
function split_line(line, tokens) {
    sub(/;$/, " ;", line)
    return split(line, tokens, " ")
}

# ---- registers: their types, and for each that is in one part alone, outside `while`, that part

function take_registers(line, home,    i, n, tokens) {
    n = split(line, tokens, " ")
    for (i = 1; i < n; i++) {
        if (!(tokens[i] in is_type && tokens[i + 1] ~ /^name_/)) continue
        register_type[tokens[i + 1]] = tokens[i]
        home_of[tokens[i + 1]] = home
    }
}

function find_homes(    i, k, home, j, n, tokens) {
    split("", register_type)
    split("", home_of)
    take_registers(lines[1], 0)
    k = 1
    for (i = 2; i <= line_count; i++) {
        if (lines[i] ~ / = \{\};$/) {
            take_registers(lines[i], "")
            continue
        }
        while (k <= part_count && last[k] < i) k++
        home = k <= part_count && first[k] <= i && is_once[k] ? k : 0
        n = split_line(lines[i], tokens)
        for (j = 1; j <= n; j++) {
            if (!(tokens[j] in register_type)) continue
            if (home_of[tokens[j]] == "") home_of[tokens[j]] = home
            else if (home_of[tokens[j]] != home) home_of[tokens[j]] = 0
        }
    }
}

# ---- shapes: what parts are but for their registers and numbers

function find_shapes(    k, text) {
    split("", uses)
    for (k = 1; k <= part_count; k++) {
        text = shape_of(k)
        if (!(text in shape_number)) {
            shape_number[text] = ++shape_count
            shape_text[shape_count] = text
        }
        shape[k] = shape_number[text]
        uses[shape[k]]++
        numbers_of[k] = numbers
        registers_of[k] = registers
    }
}

# the shape of a part, and its `numbers` and `registers`
function shape_of(k,    i, text) {
    members = variables = parameters = numbers = registers = ""
    name_count = 0
    split("", name_for)
    for (i = first[k]; i <= last[k]; i++) text = text substr(line_shape(k, lines[i]), 2) "\n"
    return members SUBSEP parameters SUBSEP variables text
}

function line_shape(k, line,    i, n, tokens, token, text) {
    n = split_line(line, tokens)
    for (i = 1; i <= n; i++) {
        token = tokens[i]
        if (token in register_type) {
            token = register_name(k, token)
        } else if (token in number_type) {
            # as in `I32 ( 7 )` and `I32 ( - 7 )`
            if (tokens[i + 2] == "-") token = number_name(number_type[token], token "(-" tokens[i++ + 3] ")")
            else token = number_name(number_type[token], token "(" tokens[i + 2] ")")
            i += 3
        } else if (token ~ /^[0-9]/) {
            token = number_name("u32", token)
        }
        text = text " " token
    }
    return text
}

function register_name(k, register,    type) {
    if (register in name_for) return name_for[register]
    type = register_type[register]
    if (home_of[register] == k) {
        variables = variables type " register_" ++name_count " = {};\n"
    } else {
        parameters = parameters ", " type " & register_" ++name_count
        registers = registers ", " register
    }
    return name_for[register] = "register_" name_count
}

function number_name(type, number) {
    members = members type " number_" ++name_count "; "
    numbers = numbers (numbers == "" ? "" : ", ") number
    return "row.number_" name_count
}

# ---- what is written

function is_common(k) {
    return k > 0 && uses[shape[k]] >= least_uses
}

# Writes the function of a shape, if it doesn't stand yet.
function write_shape(number,    pieces_of) {
    if (number in is_written) return
    is_written[number] = 1
    split(shape_text[number], pieces_of, SUBSEP)
    emit("struct numbers_" number " { " pieces_of[1] "};")
    emit("static void part_" number "(const numbers_" number " &row" pieces_of[2] ") {")
    emit(pieces_of[3] "}")
}

# the last part in a row of parts that are alike
function last_alike(from,    to) {
    to = from
    while (to < part_count && first[to + 1] == last[to] + 1 && shape[to + 1] == shape[from] && registers_of[to + 1] == registers_of[from]) to++
    return to
}

# Writes the numbers of these parts, many on a line.
function write_table(text, from, to,    k) {
    for (k = from; k <= to; k++) {
        text = text "{" numbers_of[k] "}, "
        if (length(text) < 2000) continue
        emit(text)
        text = ""
    }
    emit(text "};")
}

# what does these parts, which are alike
function call_of(from, to,    k, number, rows) {
    number = shape[from]
    write_shape(number)
    if (from == to) return "part_" number "({" numbers_of[from] "}" registers_of[from] ");"
    rows = "rows_" ++table_count
    write_table("static const numbers_" number " " rows "[] = {", from, to)
    return "for (const numbers_" number " &row : " rows ") part_" number "(row" registers_of[from] ");"
}

# whether a line declares a register that is a variable of a part's function
function is_moved(line,    words) {
    if (line !~ / = \{\};$/) return 0
    split(line, words, " ")
    return is_common(home_of[words[2]])
}

function shorten(    i, k, to, count) {
    find_parts()
    find_homes()
    find_shapes()
    k = 1
    for (i = 1; i <= line_count; i++) {
        while (k <= part_count && first[k] < i) k++
        if (k <= part_count && first[k] == i && is_common(k)) {
            to = last_alike(k)
            i = last[to]
            lines[++count] = call_of(k, to)
        } else if (!is_moved(lines[i])) {
            lines[++count] = lines[i]
        }
    }
    line_count = count
}
