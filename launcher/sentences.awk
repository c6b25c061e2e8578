# The sentences that docs/FORMATS.md has for kinds of faults, and docs/MACHINE.md for traps.

# A cell of the table below this heading of the document whose first column is `first`: of the row of a number, in the column of this name.
function sentence(document, heading, first, number, column,    file, line, fenced, cells, place, at, found) {
    file = ENVIRON["here"] "/docs/" document
    while (found == "" && (getline line < file) > 0) {
        if (line ~ /^```/) fenced = !fenced
        if (line ~ /^#/ && !fenced) at = line ~ "^#+ " heading "$" ? 1 : 0
        if (!at || line !~ /^\|/) continue
        place = split(line, cells, / *[|] */)
        if (at > 1 && cells[2] == number) found = cells[at]
        else if (cells[2] == first) for (at = place; at > 1 && cells[at] != column; at--);
    }
    close(file)
    gsub(/`/, "", found)
    return found
}

function fault_sentence(what, kind,    heading) {
    heading = "The " what
    if (what == "commands") heading = "The commands of a session"
    if (what == "log") heading = "The log of a core"
    if (what == "lines") heading = "The lines that are read"
    if (what == "image" && kind >= 20) heading = "The executable"
    return sentence("FORMATS.md", kind == 0 ? "The image" : heading, "kind", kind, "where")
}

function trap_sentence(number) {
    return sentence("MACHINE.md", "The instruction machine", "trap", number, "meaning")
}
