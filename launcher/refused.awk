# What is said of a refused file, which is read from standard input if it is a text: the sentence of its fault, and the line with the place
# marked. In the environment: `said`, the line of the program, `refused WHAT KIND at PLACE`, and `file`, the name.

BEGIN {
    split(ENVIRON["said"], told, " ")
    what = told[2]
    kind = told[3] + 0
    place = told[5] + 0
    is_text_file = what != "image" && place > 0 && kind > 0
    print ENVIRON["name"] ": " shown(ENVIRON["file"]) " is refused" where() ": " fault_sentence(what, kind)
    if (what == "image" && (kind == 1 || kind == 2) && ENVIRON["file"] ~ /\.s$/) print ENVIRON["name"] ": " assembled(ENVIRON["file"])
    if (!is_text_file) exit
}

NR < place { if (what == "source" && kind == 6) note_labels($0) }

NR == place {
    find_place($0)
    show_line($0)
    exit
}

# What is said of a source in the place of an image.
function assembled(file,    image) {
    if (file !~ /^[A-Za-z0-9_.\/][A-Za-z0-9_.\/-]*$/) file = "SOURCE.s"
    image = substr(file, 1, length(file) - 2) ".diva"
    return "if it is a source, " ENVIRON["self"] " asm " file " > " image " makes an image of it"
}

function where() {
    if (kind == 0) return ""
    if (what == "image") return ", byte " place
    return place ? ", line " place : ""
}

# ---- the line

# The line with a mark below the place that was found, `from` and `wide`. A long line is cut before it, and a long mark after 60 letters.
function show_line(line,    number, cut, before, mark) {
    number = sprintf("%5d | ", place)
    if (wide > 60) wide = 60
    if (from + wide > 70) cut = from > 20 ? from - 20 : 0
    line = substr(line, cut + 1)
    before = as_columns(substr(line, 1, from - cut - 1))
    mark = as_columns(substr(line, from - cut, wide))
    line = (cut ? ".." : "") before mark as_columns(substr(line, from - cut + wide, 90))
    gsub(/[ \t]+$/, "", line)
    print number substr(line, 1, 90)
    print "      | " blanks(before (cut ? ".." : ""), " ") (mark == "" ? "^" : blanks(mark, "^"))
}

# A text in which each byte has its own column: what has none of its own, or more than one, is a blank or `?`.
function as_columns(text) {
    gsub(/[\t\r]/, " ", text)
    gsub(/[\001-\037\177-\377]/, "?", text)
    return text
}

function blanks(text, with) {
    gsub(/./, with, text)
    return text
}

# ---- its words

# The words of a line up to its comment, with these letters between them: `word`, and where each stands, `start`. The answer is how many.
function find_words(line, between,    count, at) {
    sub(/#.*/, "", line)
    at = 1
    while (match(line, "[^" between "]+")) {
        count++
        word[count] = substr(line, RSTART, RLENGTH)
        start[count] = at + RSTART - 1
        at += RSTART + RLENGTH - 1
        line = substr(line, RSTART + RLENGTH)
    }
    end = count ? start[count] + length(word[count]) : 1
    return count + 0
}

function mark_word(place) {
    from = start[place]
    wide = length(word[place])
}

# Marks from one place of a line up to another.
function mark(first, after) {
    from = first
    wide = after > first ? after - first : 0
}

function find_place(line) {
    mark(1, 1)
    if (what == "script") script_place(find_words(line, " \t\r"))
    if (what == "commands") command_place(find_words(line, " \t\r"))
    if (what == "tape") tape_place(line)
    if (what == "log") log_place(find_words(line, " \t\r"))
    if (what == "lines") cells_place(line)
    if (what == "source") source_place(line)
}

# The word that is left over in a line that should have so many, or the end.
function count_place(count, due) {
    if (count > due) mark_word(due + 1); else mark(end, end)
}

function is_hex(text) {
    return text ~ /^[0-9A-Fa-f]+$/ && length(text) <= 8
}

function is_within(text, least, most) {
    return text ~ /^[0-9]+$/ && length(text) <= 10 && decimal(text) >= least && decimal(text) <= most
}

# ---- of a script, of the commands of a session, of a log, of a tape

function script_place(count,    due) {
    due = word[3] == "hush" ? 4 : (word[5] == "lose" || word[5] == "double" ? 5 : 7)
    if (kind == 1) mark_word(word[1] != "at" ? 1 : (word[3] != "lane" && word[3] != "hush" ? 3 : 5))
    if (kind == 2) mark_word(!is_within(word[2], 1, 1000000000) ? 2 : (is_script_fourth(word[4]) ? 7 : 4))
    if (kind == 3) mark_word(6)
    if (kind == 4) count_place(count, due)
    if (kind == 5) mark(start[1], end)
}

function is_script_fourth(text) {
    return word[3] == "hush" ? is_within(text, 1, 1000000000) : is_within(text, 0, 7)
}

function command_place(count) {
    if (kind == 1) mark_word(1)
    if (kind == 2) mark_word(word[1] == "mem" && is_hex(word[2]) ? 3 : 2)
    if (kind == 3) count_place(count, word[1] == "mem" ? 3 : (word[1] == "why" ? 1 : 2))
}

function log_place(count,    place) {
    if (kind == 1) {
        for (place = 1; place < count && is_said(place); place++);
        mark_word(place)
    }
    if (kind == 2) count_place(count, count > 8 ? 10 : 8)
}

function is_said(place) {
    return word[place] == "-" || (place == 8 && word[place] == "t") || is_hex(word[place])
}

function tape_place(line,    count, claims, place, at) {
    if (kind == 1) {
        count = find_words(line, "; \t\r")
        for (place = 1; place < count && is_hex(word[place]); place++);
        mark_word(place)
        return
    }
    sub(/#.*/, "", line)
    count = split(line, claims, ";")
    at = 1
    for (place = 1; place < count && (kind == 3 ? place < 9 : numbers_of(claims[place]) == 8); place++) at += length(claims[place]) + 1
    mark(at, kind == 3 ? length(line) + 1 : at + length(claims[place]))
    trim(line)
}

# Of the line of a fault, which has 14 cells: the cells that are left over, or the end; or the first cell that is not what is due there; or all.
function cells_place(line,    cells, count, place, at) {
    count = split(line, cells, ",")
    at = 1
    if (kind == 4) mark(1, length(line) + 1)
    if (kind == 1) {
        for (place = 1; place <= 14; place++) at += length(cells[place]) + 1
        mark(count > 14 ? at : length(line) + 1, length(line) + 1)
    }
    if (kind == 2 || kind == 3) {
        for (place = 1; place < 13 && is_due(cells[place], place); place++) at += length(cells[place]) + 1
        mark(at, at + length(cells[place]))
    }
}

# Whether a cell is what is due at its place. Numbers are below 2^63, and the sixth cell is a bit.
function is_due(cell, place,    forms) {
    split("[0-9]+ (flip|set|lose|double|hush|stuck[01]) [0-9]+ [0-9]* (pc|word|src1|src2|addr|value|next|end)? [0-9]* " \
        "(yes|no) [0-9]+ [0-9]* [0-9]+ (yes|no) (masked|silent|trap|hang|stray) [0-9]*", forms, " ")
    if (cell !~ "^" forms[place] "$") return 0
    if (forms[place] !~ /^\[/) return 1
    return length(cell) < 19 + ((cell "") < "9223372036854775808") && (place != 6 || decimal(cell) <= 31)
}

function numbers_of(claim) {
    return gsub(/[^ \t\r]+/, "", claim)
}

# Takes blanks from both ends of what is marked.
function trim(line) {
    while (wide > 1 && substr(line, from, 1) ~ /[ \t\r]/) {
        from++
        wide--
    }
    while (wide > 1 && substr(line, from + wide - 1, 1) ~ /[ \t\r]/) wide--
}

# ---- of a source

# The labels of a line are taken from it one by one: the answer is how many letters they have.
function after_labels(line,    at) {
    at = 1
    while (match(substr(line, at), /^[ \t\r]*[A-Za-z_][A-Za-z0-9_]*[ \t\r]*:/)) {
        label = substr(line, at, RLENGTH - 1)
        gsub(/[ \t\r]/, "", label)
        if (label in labels && again == "") {
            again = label
            mark(at, at + RLENGTH - 1)
        }
        labels[label]
        at += RLENGTH
    }
    return at
}

function note_labels(line) {
    sub(/#.*/, "", line)
    after_labels(line)
    again = ""
}

# Marks the part of a statement that its kind speaks of: a label, the mnemonic, all operands, or one of them.
function source_place(line,    at, first) {
    sub(/#.*/, "", line)
    at = after_labels(line)
    if (kind == 6) {
        trim(line)
        return
    }
    match(substr(line, at) " ", /[^ \t\r]/)
    first = at + RSTART - 1
    match(substr(line, first) " ", /[ \t\r,]/)
    at = first + RSTART - 1
    mark(first, at)
    if (kind == 1 || kind >= 8 || substr(line, at) ~ /^[ \t\r]*$/) return
    if (kind == 2) mark(at, length(line) + 1)
    else operand_place(line, at)
    trim(line)
}

# Registers come first among operands, and a number or a place is the last one, before a register in parentheses if it has one.
function operand_place(line, at,    count, operands, place) {
    count = split(substr(line, at), operands, ",")
    for (place = 1; place < count && (kind != 3 || is_register(operands[place])); place++) at += length(operands[place]) + 1
    mark(at, at + length(operands[place]))
    if (!match(operands[place], /\(/)) return
    if (kind == 3) mark(at + RSTART, at + RSTART + index(substr(operands[place], RSTART), ")") - 2)
    if (kind == 4 && RSTART > 1) mark(at, at + RSTART - 1)
}

function is_register(text) {
    gsub(/[ \t\r]/, "", text)
    return text ~ /^(x[0-9]|x[12][0-9]|x3[01]|zero|ra|sp|gp|tp|fp|t[0-6]|s[0-9]|s1[01]|a[0-7])$/
}
