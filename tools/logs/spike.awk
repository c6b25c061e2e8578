# From the log of the instructions that Spike commits. Run: spike -l --log-commits --log=COMMITS .. ; awk -f spike.awk COMMITS > LOG
#
# Written from memory of Spike's sources (riscv/execute.cc), and tried on lines that were rendered from the bench's packets alone. Of its lines
# these are read; `-l` has it write the third kind, and others, which are passed over:
#
#     core   0: 3 0x00010018 (0x00340283) x5  0xffffff80 mem 0x00010003     the register that is written; mem, the address of a load
#     core   0: 3 0x00010030 (0x006402a3) mem 0x00010005 0x80               a store, with as many bytes as it writes
#     core   0: exception trap_user_ecall, epc 0x0001008c                   an ECALL, which is not committed
#
# It has each effect of an instruction, so `rd` and `mask` are said of each. What it does not know is `-`: src1, src2, next, end, and all
# of an ECALL but pc and word. No line is made of an instruction that traps: the judge says that it is missing, with status 4.
#
# -v mode=0 leaves out the lines of other privilege modes than 0, the user's: those of the proxy kernel. -v entry=00010010 leaves out the
# lines before the first one with this pc: those of the boot code. The program's calls are those that the kernel has; 93 is one.

function hex(word) {
    sub(/^\(?0x/, "", word); sub(/\).*/, "", word)
    return length(word) > 8 ? substr(word, length(word) - 7) : word
}

# The bytes of the word that a store to this address writes, from its number of hex digits on.
function mask_of(addr, digits) { return sprintf("%x", (2 ^ (digits / 2) - 1) * 2 ^ ((index("0123456789abcdef", substr(addr, length(addr))) - 1) % 4)) }

function skips(pc) {
    if (pc == entry) begun = 1
    return entry != "" && !begun
}

/: exception trap_(user|supervisor|machine)_ecall, epc / {
    pc = hex($NF)
    if (!skips(pc) && (mode == "" || mode == (/trap_user/ ? 0 : /trap_supervisor/ ? 1 : 3))) print pc, "00000073 - - - - - - - -"
}

/^core/ && $3 ~ /^[0-3]$/ && $4 ~ /^0x/ && $5 ~ /^\(/ {
    if (mode != "" && $3 != mode || skips(hex($4))) next
    value = addr = "-"; rd = mask = 0
    for (i = 6; i < NF; i++) {
        if ($i == "x") $i = "x" $(i + 1)    # older versions write `x 5`
        if ($i ~ /^x[0-9]+$/) { rd = sprintf("%x", substr($i, 2)); value = hex($(i + 1) ~ /^0x/ ? $(i + 1) : $(i + 2)) }
        if ($i == "mem") {
            addr = hex($(i + 1))
            if ($(i + 2) ~ /^0x/) { value = hex($(i + 2)); mask = mask_of(addr, length(value)) }
        }
    }
    print hex($4), hex($5), "-", "-", addr, value, "-", "-", rd, mask
}
