# PicoRV32 traps as it stores, and has put the store on the bus by then. By RISC-V a store that traps writes nothing.
        .size  64
        li     x5, 15
        sh     x5, 0(x5)
