# From RVFI, the formal interface of RISC-V cores, as text. Run: awk -f rvfi.awk PACKETS > LOG
#
# Reads one packet a line, in program order: these signals in hex, in the order of riscv-formal's description of RVFI (docs/source/rvfi.rst),
# without `valid`, `mode` and `ixl`. Any of them may be `-`, of a core that lacks it; `#` begins a comment. Written from memory of that description,
# and tried on what examples/rtl has of PicoRV32.
#
#     order insn trap halt intr rs1_addr rs2_addr rs1_rdata rs2_rdata rd_addr rd_wdata pc_rdata pc_wdata
#     mem_addr mem_rmask mem_wmask mem_rdata mem_wdata
#
# mem_addr may be the address of the access or of the word in which it lies: a mask counts its bytes from mem_addr on, so both come to the
# same. What cannot be known, or does not count, is `-`:
#   src1, src2    of an instruction that reads no such register: rs1_addr and rs2_addr may be anything then
#   addr          of a load, if mem_rmask has more bytes than the load: it says the word alone, as PicoRV32's does
#   addr, value   of a store, if mem_wmask has other bytes than the store could write: the mask says what is wrong
#   value         if no register is written and nothing is stored
#   next          of an instruction that ends the program: RVFI says where the core goes on
#   an ECALL      RVFI does not know its registers. A bench may say that it read x17 and x10, as rs1 and rs2, and set `halt` if the program
#                 ends with it; a `trap` without `halt` is a call that a handler serves, and its end is `-`
# Which instruction a trap is of is known, and not which trap: `t`. `rd` and `mask` are said of each instruction.
#
# With -v live=1 each line is flushed, for a judge that answers (mawk needs -W interactive too, to read line by line).

BEGIN {
    # An opcode is the low seven bits of a word: two hex digits, in the first of which the highest bit counts not.
    split("03 83 13 93 23 a3 33 b3 63 e3 67 e7", opcodes, " "); for (i in opcodes) reads_rs1[opcodes[i]] = 1
    split("23 a3 33 b3 63 e3", opcodes, " "); for (i in opcodes) reads_rs2[opcodes[i]] = 1
    loads["03"] = loads["83"] = stores["23"] = stores["a3"] = 1
}

function number(hex,    i, sum) {
    for (i = 1; i <= length(hex); i++) sum = 16 * sum + index("0123456789abcdef", substr(hex, i, 1)) - 1
    return sum + 0
}

function eight(hex) { return substr("0000000" hex, length(hex)) }

# How many bytes a load or a store of this word moves, by its funct3.
function width_of(word) { return 2 ^ (number(substr(word, 5, 1)) % 4) }

# The lowest byte of a mask that is so many bytes side by side, else -1.
function lane_of(mask, width,    lane) {
    for (lane = 0; mask && mask % 2 == 0; lane++) mask /= 2
    return mask == 2 ^ width - 1 ? lane : -1
}

# The address of a mask's lowest byte.
function address_of(lane) { return $14 == "-" ? "-" : sprintf("%08x", (number($14) + lane) % 2 ^ 32) }

{ sub(/#.*/, ""); $0 = tolower($0) }

NF == 0 { next }

NF != 18 { print "rvfi.awk: line " NR " has " NF " words in the place of 18" > "/dev/stderr"; exit 1 }

{
    word = eight($2); opcode = substr(word, 7); is_call = word == "00000073"; traps = $3 == "1"; halts = $4 == "1"
    src1 = src2 = addr = value = "-"
    mask = $16 == "-" || $14 == "-" ? $16 : sprintf("%x", number($16) * 2 ^ (number($14) % 4))

    if (!traps) {
        if (opcode in reads_rs1 || is_call && $6 == "11") src1 = $8
        if (opcode in reads_rs2 || is_call && $7 == "a") src2 = $9
        if (opcode in loads && $15 != "-") {
            lane = lane_of(number($15), width_of(word))
            if (lane >= 0) addr = address_of(lane)
        }
        if (opcode in stores) {
            lane = $16 == "-" ? -1 : lane_of(number($16), width_of(word))
            if (lane >= 0) addr = address_of(lane)
            if (lane >= 0 && $18 != "-") value = substr(eight($18), 9 - 2 * (lane + width_of(word)), 2 * width_of(word))
        } else if ($10 != "0") value = $11
    }

    leads = $13; end = 0
    if (traps) { leads = "-"; end = is_call && !halts ? "-" : "t" }
    else if (is_call && halts) { leads = "-"; end = src2 == "-" ? "-" : "1" substr(eight(src2), 7) }

    print $12, word, src1, src2, addr, value, leads, end, $10, mask
    if (live) fflush()
}
