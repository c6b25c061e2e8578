# The sum of the numbers from 10 down to 1, which is the status of the halt: 34 instructions.
.size 64
        li   a0, 0
        li   t0, 10
loop:   add  a0, a0, t0
        addi t0, t0, -1
        bne  t0, x0, loop
        li   a7, 93
        ecall
