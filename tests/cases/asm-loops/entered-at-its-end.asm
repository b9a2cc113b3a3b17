; least budget 16
routine main public budget BUDGET
        SETK k0 4
        JMP t
h:
        LDI w0 1
        LDI w0 2
t:
        LOOP k0 h
        RET
