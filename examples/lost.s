# Copies one word too many, and then calls a function by its address. Where does the call lead, and why?
.size 128
        la   x5, table
        la   x6, copy
        li   x7, 5              # the table has four words
loop:   lw   x8, 0(x5)
        sw   x8, 0(x6)
        addi x5, x5, 4
        addi x6, x6, 4
        addi x7, x7, -1
        bne  x7, x0, loop
        la   x9, link
        lw   x9, 0(x9)
        jalr x1, 0(x9)
done:   li   a7, 93
        ecall
table:  .word 3
        .word 1
        .word 4
        .word 1
copy:   .space 16
link:   .word done              # the address of the function
