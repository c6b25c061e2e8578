# What is said of a log that is wrong, or ends before the program does, by the text of its judgement on standard input. In the environment: `said`,
# `wrong` or `short`.

/^left over / { left = $3 }

/^judged / {
    if (ENVIRON["said"] == "short") tell("the log ends before the program does, after " of_lines($4))
    if ($6 > 0) tell($6 " of " $2 " judged lines " ($6 == 1 ? "is" : "are") " wrong")
    if (left > 0) tell(of_lines(left) (left == 1 ? " is" : " are") " left over after the end of the program")
    else if ($4 - $2 > 0) tell(of_lines($4 - $2) ($4 - $2 == 1 ? " was" : " were") " not judged")
    print ENVIRON["name"] ": " sentence
}

function tell(part) {
    sentence = sentence (sentence == "" ? "" : "; ") part
}

function of_lines(count) {
    return count " " (count == 1 ? "line" : "lines")
}
