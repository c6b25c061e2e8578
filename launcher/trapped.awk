# What is said of a run that trapped, by its text on standard input: by which trap, and where; of two harts, which of them did.

/^hart / { hart = $0 " " }

# A judgement says no pc, and ends with its sum.
/^judged / && number != "" { print ENVIRON["name"] ": the program traps: " trap_sentence(number) " (trap " number ")" }

/^end / { number = $2 == "trap" ? $3 : "" }

/^pc / && number != "" {
    print ENVIRON["name"] ": " (hart == "" ? "the run " : hart) "trapped at pc " $2 ": " trap_sentence(number) " (trap " number ")"
}
