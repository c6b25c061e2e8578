# A result for x0: it is computed and claimed, and written nowhere.
.size 64
        addi x0, x0, 7
        add  x1, x0, x0
        li   a7, 93
        ecall
