# For two harts: hart 0 leaves a message, and raises a flag behind it; hart 1 waits for the flag, and sends the message back. Both
# halt with it.
.size 512
        bne  a0, x0, wait       # a0, x10, is the hart's number
        li   t0, 42
        li   t1, 1
        sw   t0, 256(x0)        # the message
        sw   t1, 260(x0)        # the flag
back:   lw   a0, 264(x0)
        beq  a0, x0, back
        j    done
wait:   lw   t1, 260(x0)
        beq  t1, x0, wait
        lw   a0, 256(x0)
        sw   a0, 264(x0)        # the message, sent back
done:   li   a7, 93
        ecall
