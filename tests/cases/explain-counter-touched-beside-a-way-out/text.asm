routine c budget 3
        SETK k0 1
        RET
routine a public budget 90
        LDI w1 1
        SETK k0 3
again:  BEQ w0 w1 out
        JMP turn
out:    SETK k0 2
        RET
turn:   CALL c
        LOOP k0 again
        RET
