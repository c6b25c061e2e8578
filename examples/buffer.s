# For two harts: each stores 1 in a word of its own, and loads the other's word close behind. Until they are in memory, neither
# hart sees what the other has stored.
.size 64
        li   x1, 1
        slli x5, x10, 2         # x10 is the hart's number, so x5 is 0 or 4
        sub  x6, x0, x5
        sw   x1, 32(x5)         # its own word: at 32 or at 36
        lw   x2, 36(x6)         # the other's
        li   a7, 93
        ecall
