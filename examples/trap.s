# A trap writes nothing: x1 keeps what it had, and the machine ends there.
.size 64
        addi x1, x0, 7
        lw   x1, 2(x0)          # no multiple of 4: trap 4
        addi x1, x0, 9          # is never reached
