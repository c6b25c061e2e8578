# The image of a seed, as a source for `diva asm`: the program that `diva soak SEED LENGTH` draws (docs/FORMATS.md, the image of a seed).
#
# usage: awk -v seed=SEED -v many=LENGTH -f random.awk > FILE.s
BEGIN {
    print ".size " 2048 + 4 * (many + 3)
    print ".entry 2048"
    print ".space 2048"
    state = seed
    for (n = 0; n < many; n++) {
        state = (1664525 * state + 1013904223) % 4294967296
        kind = bits(29, 3)
        rd = "x" 1 + bits(26, 3)
        rs1 = "x" 1 + bits(23, 3)
        rs2 = "x" 1 + bits(20, 3)
        m = bits(9, 11)
        if (kind == 0) print "addi " rd ", " rs1 ", " m
        if (kind == 1) print "sub " rd ", " rs1 ", " rs2
        if (kind == 2) print "xor " rd ", " rs1 ", " rs2
        if (kind == 3) print "mul " rd ", " rs1 ", " rs2
        if (kind == 4) print "rem " rd ", " rs1 ", " rs2
        if (kind == 5) print "blt " rs1 ", " rs2 ", " 2048 + 4 * (n + 2)
        if (kind == 6) print "sw " rs2 ", " m - m % 4 "(x0)"
        if (kind == 7) print "lw " rd ", " m - m % 4 "(x0)"
    }
    print "nop"
    print "li a7, 93"
    print "ecall"
}

# So many bits of the state, from a place on.
function bits(place, many) {
    return int(state / 2 ^ place) % 2 ^ many
}
