# Two reads of how many instructions came before: one in front of a loop, one behind it.
.size 64
        li   t0, 2
        rdinstret x1            # 1: li alone
loop:   addi t0, t0, -1
        bne  t0, x0, loop
        rdinstret x2            # 6: li, the first read and the loop's four
        sub  a0, x2, x1
        li   a7, 93
        ecall
