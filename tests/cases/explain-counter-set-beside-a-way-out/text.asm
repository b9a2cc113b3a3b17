routine main public budget 90
        SETK k0 3
again:  BEQ w0 w1 out
        JMP turn
out:    SETK k0 2
        RET
turn:   LDI w0 1
        SETK k0 5
        LOOP k0 again
        RET
