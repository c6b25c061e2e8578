# From riscv-dv's trace, a CSV that its scripts make of the log of a core or of a simulator. Run: awk -f riscv_dv.awk TRACE.csv > LOG
#
# Written from memory of riscv-dv (scripts/riscv_trace_csv.py), and tried on lines that were rendered from the bench's packets alone. Its columns are
# pc, instr, gpr, csr, binary, mode, instr_str, operand and pad; of gpr, as `t0:ffffff80`, the last pair is read, with the name of the calling
# convention or `x5`. The trace has to have all instructions: of scripts that leave some out, ask for them (--full_trace).
# What it does not know is `-`: the sources, addr, what is stored, next, end, the mask, and whether a register is written if it has none.

BEGIN {
    FS = ","
    split("zero ra sp gp tp t0 t1 t2 s0 s1 a0 a1 a2 a3 a4 a5 a6 a7 s2 s3 s4 s5 s6 s7 s8 s9 s10 s11 t3 t4 t5 t6", names, " ")
    for (i in names) number[names[i]] = number["x" i - 1] = i - 1
    number["fp"] = 8
}

function last_eight(hex) { return length(hex) > 8 ? substr(hex, length(hex) - 7) : hex }

$1 ~ /^[0-9a-f]+$/ {
    value = rd = "-"
    if ($3 ~ /:/) {
        sub(/.*;/, "", $3)
        split($3, pair, ":")
        if (pair[1] in number) { rd = sprintf("%x", number[pair[1]]); if (rd != "0") value = last_eight(pair[2]) }
    }
    print last_eight($1), $5, "-", "-", "-", value, "-", "-", rd, "-"
}
