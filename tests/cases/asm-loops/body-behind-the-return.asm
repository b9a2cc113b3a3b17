; least budget 10
routine main public budget BUDGET
        SETK k0 1
again:  JMP body
turn:   LDI w0 0
        LOOP k0 again
        RET
body:   JMP turn
