; least budget 32
routine main public budget BUDGET
        MNEW s0 w0 e
        SETK k0 10
h:
        LALLOC s0 w2 w1 f
        LOOP k0 h
        MUNLOCK s0
e:
        RET
f:
        LDI w3 1
        LDI w3 1
        LDI w3 1
        LDI w3 1
        LDI w3 1
        LDI w3 1
        LDI w3 1
        MUNLOCK s0
        RET
