# Two stores in one cycle: where the store queue has one place, the second is held back.
.size 64
        sw   x0, 32(x0)
        sw   x0, 36(x0)
        li   a7, 93
        ecall
        .space 16
        .word -1                # at 32
        .word -1
