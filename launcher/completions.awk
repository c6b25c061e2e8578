# Rows of the tables in the words of a shell: `wanted` in the environment says which.

BEGIN {
    read_tables()
    wanted = ENVIRON["wanted"]
    for (row = 1; row <= commands; row++) command_for(row, cell["commands", row, 1], cell["commands", row, 3])
    for (row = 1; row <= options; row++) if (wanted == "flags" && is_flag(row)) list = list (list == "" ? "" : " | ") cell["options", row, 1]
    for (row = 1; row <= options; row++) option_for(row, cell["options", row, 1], cell["options", row, 2])
    if (list != "") print list
}

function command_for(row, command, programs) {
    if (wanted == programs) list = list (list == "" ? "" : " ") command
    if (wanted == "zsh-" programs) print "  '" command ":" cell["commands", row, 4] "'"
    if (wanted == "options" && options_of(command) != "") print "    " command ") echo " options_of(command) " ;;"
    if (wanted == "zsh-options") print_arguments(row, command)
}

function is_flag(row) {
    return cell["options", row, 1] ~ /^-/ && cell["options", row, 2] == ""
}

function options_of(command,    row, list) {
    for (row = 1; row <= options; row++)
        if (cell["options", row, 1] ~ /^-/ && lists(cell["options", row, 5], command)) list = list (list == "" ? "" : " ") cell["options", row, 1]
    return list
}

# For bash: the options that take names or a file, each with the commands that have it so. A comma says that the names make a list.
function option_for(row, option, form,    names, count, place, patterns, has_names) {
    has_names = form == "NAME" || form == "LIST"
    if (option !~ /^-/ || !(wanted == "names" && has_names || wanted == "files" && form == "FILE")) return
    count = split(cell["options", row, 5], names, " ")
    for (place = 1; place <= count; place++) patterns = patterns (place > 1 ? " | " : "") names[place] "," option
    print "    " patterns ") " (has_names ? "echo " (form == "LIST" ? ", " : "") cell["options", row, 3] " " : "") ";;"
}

# For zsh: all that a command takes.
function print_arguments(row, command,    words, count, place, option) {
    print command ")"
    printf "  _arguments"
    for (option = 1; option <= options; option++)
        if (cell["options", option, 1] ~ /^-/ && lists(cell["options", option, 5], command)) print_argument(option)
    count = split(cell["commands", row, 2], words, " ")
    for (place = 1; place <= count; place++) print_word(place, words[place], action_of(option_row(command, words[place])))
    print "\n  ;;"
}

# A word that is no option, at its place; one that stands for many has none.
function print_word(place, word, action) {
    if (sub(/[.][.]$/, "", word)) place = "*"
    printf " \\\n    '%s:%s:%s'", place, word, action
}

function print_argument(row,    form) {
    form = cell["options", row, 2]
    printf " \\\n    '%s%s[%s]%s'", cell["options", row, 1], (form == "" ? "" : "="), cell["options", row, 6],
        (form == "" ? "" : ":" (form == "NUMBER" ? cell["options", row, 3] : form) ":" action_of(row))
}

# What zsh offers for a value: names, names with commas between them, files, or nothing.
function action_of(row) {
    if (cell["options", row, 2] == "NAME") return "(" cell["options", row, 3] ")"
    if (cell["options", row, 2] == "LIST") return "_values -s , LIST " cell["options", row, 3]
    return cell["options", row, 2] == "FILE" ? "_files" : " "
}
