# The tables of commands and of what they take, for the other parts in this folder. The launcher hands on in the environment: `here`, the
# folder of the repository; `self`, how it was called; `name`, the program that it runs; `lab`, the name of the workbench.

# Reads one table: its rows, cell by cell, as `cell[table, row, column]`. The answer is how many rows it has.
function read_table(table,    file, line, cells, column, rows) {
    file = ENVIRON["here"] "/launcher/" table ".txt"
    while ((getline line < file) > 0) {
        if (line ~ /^(#|$)/) continue
        rows++
        sub(/ +$/, "", line)
        for (column = split(line, cells, / *[|] */); column > 0; column--) cell[table, rows, column] = cells[column]
    }
    close(file)
    return rows + 0
}

function read_tables() {
    commands = read_table("commands")
    options = read_table("options")
}

# The row of a command that the program has, or 0.
function command_row(name,    row) {
    for (row = 1; row <= commands; row++) if (cell["commands", row, 1] == name && has_command(row)) return row
    return 0
}

function has_command(row) {
    return cell["commands", row, 3] == "both" || ENVIRON["name"] == ENVIRON["lab"]
}

# Whether a list of words that blanks separate has this one.
function lists(list, word) {
    return word != "" && word !~ / / && index(" " list " ", " " word " ") > 0
}

# The row of an option, or of a word, of a command; or 0.
function option_row(command, word,    row) {
    for (row = 1; row <= options; row++)
        if (cell["options", row, 1] == word && lists(cell["options", row, 5], command)) return row
    return 0
}

# The items of a list with commas between them, and this word before the last one.
function listed(list, joint,    items, count, place, text) {
    count = split(list, items, " ")
    text = items[1]
    for (place = 2; place <= count; place++) text = text (place < count ? ", " : " " joint " ") items[place]
    return text
}

# The word at a place among those that a command takes, or nothing. The last one stands for all that follow if it ends with `..`.
function word_at(command, place,    words, count) {
    count = split(cell["commands", command_row(command), 2], words, " ")
    if (place > count && words[count] ~ /[.][.]$/) place = count
    return place > count ? "" : words[place]
}

# What an option or a word takes, for a person.
function range_of(row,    form, range, names) {
    form = cell["options", row, 2]
    range = cell["options", row, 3]
    if (form == "NAME") return listed(range, "or")
    if (form == "LIST") return "1 to " split(range, names, " ") " of " listed(range, "and") ", with commas between them"
    if (form == "K/M") return "K/M, where M is " range " and K is less"
    if (form == "ADDR:LEN") return "ADDR:LEN, 1 to 8 hex digits and a length of " range
    return form == "FILE" ? "a file" : range
}
