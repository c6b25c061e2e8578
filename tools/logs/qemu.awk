# From the log of QEMU, one instruction at a time. Run:
#
#     qemu-riscv32 -singlestep -d in_asm,cpu,nochain -D STATES PROGRAM ; awk -f qemu.awk STATES > LOG
#
# Written by what QEMU 7.2 writes, and tried on that; from 8.1 on -singlestep is called -one-insn-per-tb. QEMU writes each instruction where it
# translates it, and all registers before each instruction. So of an instruction is known what its registers held, by the
# numbers in its word, what they hold at the next one, and the pc then. `rd` is the register that has changed, if one has; another than the
# word's goes before. What cannot be known is `-`: addr, what is stored, the mask, `rd` if none has changed, and next and end of the last one.
#
# qemu-riscv32 serves the calls of Linux. Of this machine's it has 93 alone; 1 fails there, and changes a0. It also sets the stack pointer.

BEGIN {
    split("03 13 23 33 63 67", opcodes, " "); for (i in opcodes) reads_rs1[opcodes[i]] = 1
    split("23 33 63", opcodes, " "); for (i in opcodes) reads_rs2[opcodes[i]] = 1
    split("03 13 17 33 37 67 6f 73", opcodes, " "); for (i in opcodes) writes_rd[opcodes[i]] = 1
}

function number(hex,    i, sum) {
    for (i = 1; i <= length(hex); i++) sum = 16 * sum + index("0123456789abcdef", substr(hex, i, 1)) - 1
    return sum
}

# Five bits of a number, from one on.
function register_at(bits, from) { return int(bits / 2 ^ from) % 32 }

# The instruction at `pc`, between the registers `was` and those of `is`; or after `was` alone, as the last one.
function put(is_last,    bits, opcode, is_call, rs1, rs2, rd, i, changed, value, src1, src2) {
    bits = number(word[pc]); opcode = sprintf("%02x", bits % 128); is_call = bits == 115
    rs1 = is_call ? 17 : register_at(bits, 15); rs2 = is_call ? 10 : register_at(bits, 20)
    rd = opcode in writes_rd && !is_call ? register_at(bits, 7) : 0
    for (i = 1; i < 32 && !is_last; i++) if (was[i] "" != is[i] "" && (changed == "" || changed == rd)) changed = i    # as texts: 00e00000 is no 0
    value = rd && !is_last ? is[rd] : "-"
    src1 = opcode in reads_rs1 || is_call ? was[rs1] : "-"
    src2 = opcode in reads_rs2 || is_call ? was[rs2] : "-"
    print pc, word[pc], src1, src2, "-", value, is_last ? "- -" : leads " 0", changed == "" ? "-" : sprintf("%x", changed), "-"
}

/^0x[0-9a-f]+: / { word[substr($1, 3, length($1) - 3)] = $2 }

$1 == "pc" { leads = $2 }

# Eight lines have the registers, the last of them x31.
/^ x[0-9]+\// {
    for (i = 1; i < NF; i += 2) { split(substr($i, 2), names, "/"); is[names[1] + 0] = $(i + 1) }
    if (31 in is) {
        if (pc != "") put(0)
        for (i = 0; i < 32; i++) was[i] = is[i]
        split("", is)
        pc = leads
    }
}

END { if (pc != "") put(1) }
