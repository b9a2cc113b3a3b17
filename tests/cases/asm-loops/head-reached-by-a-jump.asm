; least budget 14
routine main public budget BUDGET
        SETK k0 3
        JMP h
n:
        LDI w0 1
h:
        LDI w0 2
        LOOP k0 n
        RET
