# For two harts: what buffer.s does, with a FENCE between the store and the load. A FENCE waits for an empty buffer.
.size 64
        li   x1, 1
        slli x5, x10, 2         # x10 is the hart's number, so x5 is 0 or 4
        sub  x6, x0, x5
        sw   x1, 32(x5)         # its own word: at 32 or at 36
        fence
        lw   x2, 36(x6)         # the other's
        li   a7, 93
        ecall
