# PicoRV32 has fetched the next word before it stores there, which RISC-V allows without a FENCE.I. Here the next fetch sees each store.
        .size  64
        la     x6, next
        lw     x5, 32(x0)
        sw     x5, 0(x6)
next:   addi   x7, x7, 1
        li     a7, 93
        ecall
        nop
        addi   x7, x7, 2        # at 32: the word that is stored
