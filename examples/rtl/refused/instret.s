# PicoRV32 counts the read itself: its counter goes up as the instruction is decoded. Here a read has the number of instructions before it.
        .size  64
        nop
        rdinstret x5
        li     a7, 93
        ecall
