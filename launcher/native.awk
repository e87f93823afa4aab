# Makes C++ for runtime/e_acsl.h of a valid text in monitored C. Each function is declared first. A name gets a front by what it names, so that none is a word
# of C++ or of the header, and a label a number, since in C++ it is seen in its whole function. Operators that C++ leaves undefined somewhere become functions.
# A register begins as 0, a function with a line that takes a step and a frame, and a body that comes to its end returns 0. A global or literal becomes its
# pointer and a row of a table, by which it is born.
#
# A function of more than `most_lines` lines is shortened by parts.awk. The last line says how long the longest function is then. With `space` all but the head
# stands in a namespace of this name, and no C++ `main` is written.

BEGIN {
    split("i8 u8 i16 u16 i32 u32 i64 u64 i128 ptr", list, " ")
    for (i in list) {
        is_type[list[i]] = is_kept[list[i]] = 1
        is_kept[toupper(list[i])] = 1
    }
    split("static const char void if else while goto return putchar getchar exit", list, " ")
    for (i in list) is_kept[list[i]] = 1
    split("step assert store_block delete_block copy valid valid_read initialized number pointer inside base_addr block_length offset separated malloc calloc" \
          " free initialize initialize_ptr print_text print_i64 print_u64 print_str", list, " ")
    for (i in list) is_kept["__e_acsl_" list[i]] = 1
    function_of["/"] = "quotient"
    function_of["%"] = "remainder"
    function_of["<<"] = "shifted_up"
    function_of[">>"] = "shifted_down"
}

# ---- output: what stands in front of the functions is written at once, and the functions wait until all are declared. The lines of one wait until it ends

function write_first(line) {
    print line
}

function emit(line) {
    functions[++function_lines] = line
}

# a line of the function that is read
function write(line) {
    lines[++line_count] = line
}

# ---- pieces of a statement, a head or a global

function put(text) {
    pieces[++count] = text
}

function joined(    i, text) {
    for (i = 1; i <= count; i++) text = text (i > 1 ? " " : "") pieces[i]
    return text
}

function name_of(name, after) {
    if (name in is_kept) return name
    if (after == ":") return "label_" name "_" ++labels[name]
    if (before == "goto") return "label_" name "_" labels[name] + 1
    return (after == "(" ? "function_" : "name_") name
}

# digits without zeros in front, which C++ would take for octal
function decimal_of(digits) {
    sub(/^0+/, "", digits)
    return digits == "" ? "0" : digits
}

# ---- what pieces end as

function end_global(    name, size, bytes) {
    name = pieces[pieces[2] == "const" ? 4 : 3]
    size = pieces[pieces[2] == "const" ? 6 : 5]
    bytes = pieces[2] == "const" ? pieces[9] : "nullptr"
    write_first("static constexpr ptr " name " = " (last_global == "" ? "first_global" : "next_global(" last_global ", " last_size ")") ";")
    rows[++row_count] = "{" name ", " size ", " bytes "},"
    last_global = name
    last_size = size
}

function begin_function(    head) {
    head = "static " joined()
    write_first(head ";")
    line_count = 0
    write(head " {")
    is_void = pieces[1] == "void"
    if (pieces[2] != "function_main") write("Call call;")
}

function end_function(    i) {
    if (!is_void) write("return {};")
    write("}")
    if (line_count > most_lines) shorten()
    for (i = 1; i <= line_count; i++) emit(lines[i])
    if (line_count > longest) longest = line_count
}

# Ends what was put so far, by `;`, `{` or `}`.
function end_pieces(mark) {
    if (mark == "{") {
        if (body++ == 0) begin_function()
        else write(joined() " {")
    } else if (mark == "}") {
        if (--body == 0) end_function()
        else write("}")
    } else if (body == 0) {
        end_global()
    } else if (count == 2 && pieces[1] in is_type) {
        write(joined() " = {};")
    } else {
        write(joined() ";")
    }
    count = 0
}

# ---- tokens

# Puts a token, given the one after it.
function place(token, after) {
    if (token ~ /^[0-9]/) {
        put(decimal_of(token))
    } else if (token ~ /^[A-Za-z_]/) {
        put(name_of(token, after))
    } else if (token == ";" || token == "{" || token == "}") {
        end_pieces(token)
    } else if (token in function_of) {
        pieces[opened[deep]] = function_of[token] "("
        put(",")
    } else {
        put(token)
        if (token == "(") opened[++deep] = count
        else if (token == ")") deep--
    }
    before = token
}

function take(token) {
    if (current != "") place(current, token)
    current = token
}

function take_code(code,    tokens, n, i) {
    gsub(/<<|>>|[<>=!]=|[][(){};,:*+\/%&|^~=<>-]/, " & ", code)
    n = split(code, tokens, /[ \t\v\f\r]+/)
    for (i = 1; i <= n; i++) if (tokens[i] != "") take(tokens[i])
}

NR == 1 {
    write_first("#include <e_acsl.h>")
    if (space != "") write_first("namespace " space " {")
    write_first("using namespace eacsl;")
    next
}

{
    n = split($0, parts, "\"")
    for (i = 1; i <= n; i++) {
        if (i % 2) take_code(parts[i])
        else take("\"" parts[i] "\"")
    }
}

END {
    take("")
    for (i = 1; i <= function_lines; i++) print functions[i]
    print "static constexpr Content contents[] = {"
    for (i = 1; i <= row_count; i++) print rows[i]
    print "{ptr(), 0, nullptr}};"
    if (space != "") print "}"
    else print "int main(int count, char **words) { return eacsl::run({function_main, contents}, eacsl::steps_in(count, words)); }"
    print "// the longest function has " longest + 0 " lines"
}
