# Bypass: each instruction needs the result of the one before it, which has not committed yet.
.size 64
        addi x1, x0, 5
        addi x2, x1, 1
        addi x3, x2, 1
        li   a7, 93
        ecall
