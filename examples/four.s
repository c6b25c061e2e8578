# Four stores in a row: with a slow port each waits for memory, unless the store queue has a place for it.
.size 64
        sw   x0, 32(x0)
        sw   x0, 36(x0)
        sw   x0, 40(x0)
        sw   x0, 44(x0)
        li   a7, 93
        ecall
        .space 8
        .word -1                # at 32
        .word -1
        .word -1
        .word -1
