# The program whose run the samples beside this are logs of: loads and stores of each width, reads and writes of x0, calls and branches.
        .base  0x10000
        .size  4096
        .entry start
data:   .word  0x8091a2b3
        .space 12
start:  la     s0, data
        lb     t0, 3(s0)
        lbu    t1, 3(s0)
        lh     t2, 2(s0)
        lhu    t3, 2(s0)
        lw     t4, 0(s0)
        lw     zero, 0(s0)
        sb     t1, 5(s0)
        sh     t2, 6(s0)
        sh     t0, 8(s0)
        sw     t4, 12(s0)
        lw     t5, 4(s0)
        addi   zero, t0, 1
        add    s1, t0, zero
        sub    s1, zero, s1
        mulh   a1, t0, t4
        div    a2, t4, zero
        remu   a3, t4, s1
        srai   a4, t4, 4
        sltiu  a5, t0, -1
        jal    ra, twice
        li     s2, 2
loop:   addi   s2, s2, -1
        bne    s2, zero, loop
        blt    s2, t0, start
        auipc  t6, 1
        jal    zero, done
twice:  slli   a0, a1, 1
        jalr   zero, 0(ra)
done:   andi   a0, t4, 63
        li     a7, 93
        ecall
