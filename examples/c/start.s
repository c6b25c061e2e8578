# Start of a C program: the global pointer, the stack, main, and a halt whose status is main's result. What main finds
# as zeros (.bss) is zero already: all memory that no byte of the file fills is.
        .section .text.start, "ax", @progbits
        .globl  _start
_start:
        .option push
        .option norelax                 # gp is not there yet for a shorter way to reach an address
        la      gp, __global_pointer$
        .option pop
        la      sp, stack_top
        call    main
        li      a7, 93                  # the call that halts; the status is in a0, where main left it
        ecall

# The four functions that the compiler may call though no program does. Those that are not called are left out.
        .section .text.memcpy, "ax", @progbits
        .globl  memcpy
memcpy: add     a2, a1, a2              # the end of what is copied
        mv      a3, a0
1:      beq     a1, a2, 2f
        lbu     a4, 0(a1)
        sb      a4, 0(a3)
        addi    a1, a1, 1
        addi    a3, a3, 1
        j       1b
2:      ret

        .section .text.memmove, "ax", @progbits
        .globl  memmove
memmove:
        bltu    a1, a0, 1f
        tail    memcpy                  # downwards, or in place: from the first byte on
1:      add     a1, a1, a2              # upwards: from the last byte back
        add     a3, a0, a2
2:      beq     a3, a0, 3f
        addi    a1, a1, -1
        addi    a3, a3, -1
        lbu     a4, 0(a1)
        sb      a4, 0(a3)
        j       2b
3:      ret

        .section .text.memset, "ax", @progbits
        .globl  memset
memset: add     a2, a0, a2              # the end of what is filled
        mv      a3, a0
1:      beq     a3, a2, 2f
        sb      a1, 0(a3)
        addi    a3, a3, 1
        j       1b
2:      ret

        .section .text.memcmp, "ax", @progbits
        .globl  memcmp
memcmp: add     a2, a0, a2              # the end of the first piece
1:      beq     a0, a2, 2f
        lbu     a3, 0(a0)
        lbu     a4, 0(a1)
        addi    a0, a0, 1
        addi    a1, a1, 1
        beq     a3, a4, 1b
        sub     a0, a3, a4
        ret
2:      li      a0, 0
        ret
