routine main public budget 90
        SETK k0 3
again:  JMP turn
back:   LOOP k0 again
        RET
turn:   LDI w0 1
        SETK k0 2
        JMP back
