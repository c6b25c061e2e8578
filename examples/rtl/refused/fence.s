# This version of PicoRV32 has no FENCE: it traps. Here it has no effect.
        .size  64
        fence
        li     a7, 93
        ecall
