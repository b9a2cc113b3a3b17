; Makes a block with the word w0 in its first chunk; prints the handles of both.
routine make public budget 10
        LDI w1 5
        VNEW s0 w2 w1 make_end
        OUT w2 unlock
        LDI w1 2
        LALLOC s0 w3 w1 unlock
        OUT w3 unlock
        DEREF s0 p0 w3 2 unlock
        STW w0 p0 0
unlock:
        VUNLOCK s0
make_end:
        RET

; Prints the word of a block.
routine peek public budget 5
        in s0=vm@
        out s0=vm@
        LDI w1 16
        DEREF s0 p0 w1 2 peek_end
        LDW w2 p0 0
        OUT w2 peek_end
peek_end:
        RET

routine sum public budget 3
        ADD w0 w0 w1
        OUT w0 sum_end
sum_end:
        RET

routine small public budget 2
        in w0<=9
        OUT w0 small_end
small_end:
        RET

routine nothing public budget 1
        RET
