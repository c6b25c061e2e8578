# What others wrote: numbers, and texts as a terminal may show them.

# The number of decimal digits. There is an awk that reads those after a 0 as octal ones.
function decimal(digits) {
    sub(/^0+/, "", digits)
    return digits + 0
}

# Whether the bytes of a text are UTF-8.
function is_text(text) {
    gsub(/[\001-\177]|[\302-\337][\200-\277]|\340[\240-\277][\200-\277]|[\341-\354\356\357][\200-\277][\200-\277]|\355[\200-\237][\200-\277]|\360[\220-\277][\200-\277][\200-\277]|[\361-\363][\200-\277][\200-\277][\200-\277]|\364[\200-\217][\200-\277][\200-\277]/, "", text)
    return text == ""
}

# A text without what moves a terminal's cursor or sets its colours, letter by letter; of one that is no UTF-8 each odd byte is `?`.
function printable(text) {
    gsub(/[\001-\037\177]/, "?", text)
    gsub(/\302[\200-\237]/, "??", text)
    if (!is_text(text)) gsub(/[\200-\377]/, "?", text)
    return text
}

# A word for a person: in quotes if it is empty or has blanks, and cut if it is long.
function shown(word) {
    word = printable(word)
    if (length(word) > 200) word = printable(substr(word, 1, 200)) ".."
    return word == "" || word ~ /[ "']/ ? "\"" word "\"" : word
}
