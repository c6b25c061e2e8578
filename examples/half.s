# A store over half of a word, and close behind it a load of the whole word.
.size 64
        addi x1, x0, 0x55
        sh   x1, 34(x0)
        lw   x2, 32(x0)
        li   a7, 93
        ecall
        .space 12
        .word 0x44332211        # at 32: the bytes 11 22 33 44
