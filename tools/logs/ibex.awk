# From the log of Ibex's tracer. Run: awk -f ibex.awk trace_core_00000000.log > LOG
#
# Written from memory of Ibex's documentation ("Tracer") and of ibex_tracer.sv, and tried on lines that were rendered from the bench's packets alone.
# The fields are separated by tabs: time, cycle, pc, word, mnemonic, operands, and what the instruction read and wrote. There `x8:0x..` is
# a register that is read, rs1 before rs2, `x8=0x..` the one that is written, and PA the address of a load or a store:
#
#     130	61	00010018	00340283	lb	x5,3(x8)	 x8:0x00010000  x5=0xffffff80 PA:0x00010003 load:0xffffff80
#
# `store:` has the whole of rs2, of which so many bytes are taken as the word says. What it does not know is `-`: next, end and the mask.
# An instruction that traps looks like another, so of such a one the judge finds what it is said to have written, or its successor.

BEGIN { FS = "\t" }

# How many hex digits a store of this word writes, by its funct3.
function digits_of(word) { return 2 ^ ((index("0123456789abcdef", substr(word, 5, 1)) - 1) % 4 + 1) }

$3 ~ /^[0-9a-f]+$/ && $4 ~ /^[0-9a-f]+$/ {
    src[1] = src[2] = addr = value = rd = "-"; reads = 0
    count = split($0, words, /[ \t]+/)
    for (i = 1; i <= count; i++) {
        at = index(words[i], "0x"); said = substr(words[i], at + 2)
        if (words[i] ~ /^x[0-9]+:0x/) src[++reads] = said
        else if (words[i] ~ /^x[0-9]+=0x/) { rd = sprintf("%x", substr(words[i], 2, at - 3)); if (rd != "0") value = said }
        else if (words[i] ~ /^PA:0x/) addr = said
        else if (words[i] ~ /^store:0x/) value = substr(said, 9 - digits_of($4))
    }
    print $3, $4, src[1], src[2], addr, value, "-", "-", rd, "-"
}
