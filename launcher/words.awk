# The words of a command line, read as the program reads them: the same are taken. `wanted` in the environment says what is wanted of them:
# `fault`, what is wrong with them, for a person; `files`, what they load, in the order in which it is loaded; `cycles` and `room`, how many a run
# gets; `faults`, how many are injected.

BEGIN {
    read_tables()
    fault = fault_of_words()
    if (ENVIRON["wanted"] == "fault") print_fault()
    if (ENVIRON["wanted"] == "files" && fault == "") print_files()
    if (ENVIRON["wanted"] == "cycles" && fault == "") print decimal(value_or_default("--cycles"))
    if (ENVIRON["wanted"] == "faults" && fault == "") print_faults()
    if (ENVIRON["wanted"] == "room" && fault == "" && option_row(command, "--room")) print decimal(value_or_default("--room"))
}

function print_fault() {
    if (fault == "") fault = "these words are no command line"
    print ENVIRON["name"] ": " fault
    if (hint != "") print ENVIRON["name"] ": " hint
}

# A line for each file that is loaded: what it is, which word names it, and whether the name is its `own` word, or the `rest` of one.
function print_files(    kinds, words, place, count) {
    split("image script tape commands source log", kinds, " ")
    count = split("IMAGE --script --tape COMMANDS SRC LOG", words, " ")
    for (place = 1; place <= count; place++)
        if (words[place] in at) print kinds[place], at[words[place]], (words[place] in attached ? "rest" : "own")
    for (place = 1; place <= met; place++) if (word_at(command, place) == "FILE..") print "file", stands[place], "own"
}

# How many numbers from --first on and below COUNT are in the part that is run.
function print_faults(    first, count) {
    if (command != "inject") return
    first = decimal(value_or_default("--first"))
    count = decimal(value_or_default("COUNT"))
    printf "%.0f\n", (first < count ? in_part(count) - in_part(first) : 0)
}

# How many numbers below this one are in the part.
function in_part(number,    part) {
    split(value_or_default("--part"), part, "/")
    return int((number + decimal(part[2]) - 1 - decimal(part[1])) / decimal(part[2]))
}

function value_or_default(option,    row) {
    if (option in given) return given[option]
    row = option_row(command, option)
    return row ? cell["options", row, 4] : ""
}

# ---- the words, one by one

# What is wrong with the words, or nothing. Then `given` has the value of each option and word, `at` where it stands, and `attached` has the
# options whose value is in the same word, after `=`.
function fault_of_words(    place, word, over, fault) {
    for (place = 1; place < ARGC; place++) if (!is_text(ARGV[place])) return "the word " shown(ARGV[place]) " is no text: its bytes are no UTF-8"
    hint = ENVIRON["self"] " help shows the commands"
    if (ARGC < 2) return "a command is missing"
    command = ARGV[1]
    if (!command_row(command)) return unknown_command(command)
    hint = ENVIRON["self"] " help " command " shows what " command " takes"
    for (place = 2; place < ARGC && fault == ""; place++) {
        word = ARGV[place]
        if (!over && word == "--") over = 1
        else if (!over && word ~ /^--/) fault = option_met(place, word)
        else if (!over && word ~ /^-./) fault = unknown_option(word)
        else if (!over && waiting != "") fault = value_met(waiting, word, place)
        else fault = word_met(word, place)
    }
    if (fault == "" && waiting != "") fault = no_value(waiting)
    if (fault == "") fault = fault_of_whole()
    return fault
}

function option_met(place, word,    sign, option, row) {
    sign = index(word, "=")
    option = sign ? substr(word, 1, sign - 1) : word
    row = option_row(command, option)
    if (waiting != "") return no_value(waiting)
    if (!row) return unknown_option(option)
    if (option in at) return option " stands there twice"
    at[option] = place
    if (cell["options", row, 2] == "") return sign ? option " takes no value, and this has one: " shown(word) : ""
    waiting = option
    if (!sign) return ""
    attached[option]
    return value_met(option, substr(word, sign + 1), place)
}

# A value: of an option, or of a word that is none.
function value_met(option, value, place) {
    waiting = ""
    given[option] = value
    at[option] = place
    return fault_of_value(option_row(command, option), value)
}

# A word that is no option.
function word_met(value, place) {
    if (waiting != "") return no_value(waiting)
    stands[++met] = place
    if (word_at(command, met) != "") return value_met(word_at(command, met), value, place)
    return form_of(command) ": " shown(value) " is one word more than that"
}

function form_of(command) {
    return command " " cell["commands", command_row(command), 2]
}

# ---- what is wrong with the whole

function fault_of_whole(    words, count) {
    count = split(cell["commands", command_row(command), 2], words, " ")
    sub(/[.][.]$/, "", words[count])
    if (met < count) return form_of(command) ": " words[met + 1] " is missing"
    if (given["--core"] == "tape" && !("--tape" in at)) return "--core tape plays a tape, and --tape FILE is missing"
    if ("--tape" in at && given["--core"] != "tape") return "--tape is taken with --core tape alone"
    if (is_before(value_or_default("--to"), value_or_default("--from")))
        return "--to is before --from: " value_or_default("--to") " is less than " value_or_default("--from")
    return ""
}

function is_before(last, first) {
    return last != "" && first != "" && decimal(last) < decimal(first)
}

function unknown_command(word,    row, all) {
    for (row = 1; row <= commands; row++) {
        if (has_command(row)) all = all " " cell["commands", row, 1]
        else if (word == cell["commands", row, 1]) return word " is a command of " ENVIRON["lab"] ", and not of " ENVIRON["name"]
    }
    return "there is no command " shown(word) nearest(word, all)
}

# An option that the command lacks: which commands have it, or which one is the nearest.
function unknown_option(word,    row, all, having) {
    for (row = 1; row <= options; row++) {
        if (lists(cell["options", row, 5], command)) all = all " " cell["options", row, 1]
        if (cell["options", row, 1] == word) having = having " " commands_of(cell["options", row, 5])
    }
    if (having ~ /[a-z]/) return command " has no option " word "; " listed(having, "and") (having ~ /[a-z] +[a-z]/ ? " have it" : " has it")
    if (word !~ /^--/) return "there is no option " shown(word) "; a file of that name goes after --"
    return command " has no option " shown(word) nearest(word, all)
}

# Those of the commands that the program has.
function commands_of(list,    names, count, place, own) {
    count = split(list, names, " ")
    for (place = 1; place <= count; place++) if (command_row(names[place])) own = own " " names[place]
    return own
}

# ---- values

function no_value(option,    row) {
    row = option_row(command, option)
    return option " takes " range_of(row) ", and its value is missing"
}

function fault_of_value(row, value,    form, range, fault) {
    form = cell["options", row, 2]
    range = cell["options", row, 3]
    if (form == "FILE") return ""
    if (form == "NUMBER" && is_number(value, range)) return ""
    if (form == "NAME" && lists(range, value)) return ""
    if (form == "LIST" && is_list(value, range)) return ""
    if (form == "K/M" && is_fraction(value, range)) return ""
    if (form == "ADDR:LEN" && is_part(value, range) && !is_past(value, range)) return ""
    fault = cell["options", row, 1] " takes " range_of(row) ", and this is " shown(value)
    if (form == "NAME") return fault nearest(value, range)
    if (form == "LIST") return fault stranger(value, range)
    if (form == "ADDR:LEN" && is_past(value, range)) return fault ", which ends past 2^32"
    return value ~ /^[0-9]+$/ && length(value) > 10 ? fault ": a number has ten digits at most" : fault
}

# Whether a number is in a range, `A to B` or `A to B in steps of C`.
function is_number(value, range,    parts) {
    if (value !~ /^[0-9]+$/ || length(value) > 10) return 0
    split(range, parts, " ")
    return decimal(value) >= parts[1] + 0 && decimal(value) <= parts[3] + 0 && (parts[7] == "" || decimal(value) % parts[7] == 0)
}

# Whether a value is some of these names, as many as there are at most, with commas between them. One may stand there twice.
function is_list(value, range,    items, count, place) {
    count = split(value, items, ",")
    for (place = 1; place <= count && lists(range, items[place]); place++);
    return count > 0 && place > count && count <= split(range, items, " ")
}

# What says which item of a list is none of these names, and which of them is the nearest.
function stranger(value, range,    items, count, place) {
    count = split(value, items, ",")
    for (place = 1; place <= count && lists(range, items[place]); place++);
    if (place > count) return ""
    return (count > 1 ? ": " shown(items[place]) " is none of them" : "") nearest(items[place], range)
}

# Whether a value is `K/M` with M in a range and a lower K.
function is_fraction(value, range,    parts, ends) {
    split(range, ends, " ")
    if (split(value, parts, "/") != 2 || !is_number(parts[1], "0 to " ends[3]) || !is_number(parts[2], range)) return 0
    return decimal(parts[1]) < decimal(parts[2])
}

# Whether a value is an address and a length that is in a range; and whether memory ends before that does.
function is_part(value, range,    parts) {
    if (value !~ /^[0-9A-Fa-f]+:[0-9]+$/) return 0
    split(value, parts, ":")
    return length(parts[1]) <= 8 && is_number(parts[2], range)
}

function is_past(value, range,    parts) {
    split(value, parts, ":")
    return is_part(value, range) && hex(parts[1]) + decimal(parts[2]) > 4294967296
}

function hex(digits,    place, number) {
    for (place = 1; place <= length(digits); place++)
        number = 16 * number + index("0123456789abcdef", tolower(substr(digits, place, 1))) - 1
    return number
}

# ---- the nearest word

# What says which of the words is the nearest, if one is near.
function nearest(word, list,    words, count, place, far, least, found) {
    if (length(word) > 30) return ""
    least = 2 + (length(word) > 6)
    count = split(list, words, " ")
    for (place = 1; place <= count; place++) {
        far = distance(word, words[place])
        if (far > least || far >= length(word) - (word ~ /^--/ ? 2 : 0)) continue
        if (far < least || found == "") found = words[place]
        least = far
    }
    return found == "" ? "" : "; the nearest is " found
}

# In how many letters two words differ: one that is changed, put in, or left out, or two that are swapped.
function distance(from, to,    row, column, cost, table, least) {
    for (row = 0; row <= length(from); row++) {
        for (column = 0; column <= length(to); column++) {
            cost = substr(from, row, 1) != substr(to, column, 1)
            least = row == 0 ? column : row
            if (row > 0 && column > 0) {
                least = table[row - 1, column - 1] + cost
                if (table[row - 1, column] + 1 < least) least = table[row - 1, column] + 1
                if (table[row, column - 1] + 1 < least) least = table[row, column - 1] + 1
            }
            if (row > 1 && column > 1 && cost && substr(from, row - 1, 2) == substr(to, column, 1) substr(to, column - 1, 1) &&
                table[row - 2, column - 2] + 1 < least) least = table[row - 2, column - 2] + 1
            table[row, column] = least
        }
    }
    return table[length(from), length(to)]
}
