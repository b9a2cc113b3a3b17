; least budget 19
routine main public budget BUDGET
        MNEW s0 w0 e
        SETK k0 4
h:
        LALLOC s0 w2 w1 n
        LDI w3 1
n:
        LOOP k0 h
        MUNLOCK s0
e:
        RET
