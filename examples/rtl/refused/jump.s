# PicoRV32 jumps, and traps there: it has written the return address by then. By RISC-V it is the jump that traps, and it writes nothing.
        .size  64
        jal    x1, 10
