; least budget 14
routine main public budget BUDGET
        SETK k0 2
again:  BEQ w0 w0 body
turn:   LDI w0 0
        LOOP k0 again
        RET
body:   JMP turn
