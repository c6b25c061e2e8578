# The help: the commands, or what the command takes that is the one word. The status is 1, and nothing is written, if there is no such command.

BEGIN {
    read_tables()
    if (ARGC < 2) help()
    else if (command_row(ARGV[1])) help_with(command_row(ARGV[1]))
    else exit 1
}

# A text in the second column, in lines of 100 letters at most.
function second_column(first, text,    words, count, place, line) {
    count = split(text, words, " ")
    line = sprintf("  %-23s", first)
    for (place = 1; place <= count; place++) {
        if (length(line " " words[place]) > 100) {
            print line
            line = sprintf("%25s", "")
        }
        line = line " " words[place]
    }
    print line
}

function help(    row) {
    print "usage: " ENVIRON["self"] " COMMAND WORDS.."
    print ""
    for (row = 1; row <= commands; row++)
        if (has_command(row)) second_column(cell["commands", row, 1] " " cell["commands", row, 2], cell["commands", row, 4])
    print ""
    print ENVIRON["self"] " help COMMAND shows what a command takes."
    print ENVIRON["here"] "/docs/FORMATS.md describes all files and texts."
}

function help_with(row,    command, words, place, count, option) {
    command = cell["commands", row, 1]
    count = split(cell["commands", row, 2], words, " ")
    for (option = 1; option <= options; option++) if (is_option(option, command)) break
    print "usage: " ENVIRON["self"] " " command " " cell["commands", row, 2] (option <= options ? " [OPTION..]" : "")
    print command " " cell["commands", row, 4] "."
    print ""
    for (place = 1; place <= count; place++) describe(option_row(command, words[place]))
    if (option > options) return
    for (; option <= options; option++) if (is_option(option, command)) describe(option)
    print ""
    print "Options stand in any order, each at most once; -- ends them."
}

function is_option(row, command) {
    return cell["options", row, 1] ~ /^-/ && lists(cell["options", row, 5], command)
}

# A row for a person: what it is, and in parentheses its range and its default, as far as it has them.
function describe(row,    word, form, range, otherwise) {
    word = cell["options", row, 1]
    form = cell["options", row, 2]
    range = form == "" || form == "FILE" ? "" : range_of(row)
    otherwise = cell["options", row, 4]
    if (otherwise != "") range = range "; default " otherwise
    second_column(word (form != "" && word ~ /^-/ ? " " form : ""), cell["options", row, 6] (range != "" ? " (" range ")" : ""))
}
