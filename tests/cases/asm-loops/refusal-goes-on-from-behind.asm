; least budget 29
routine main public budget BUDGET
        MNEW s0 w0 e
        SETK k0 4
h:
        LALLOC s0 w2 w1 f
n:
        LOOP k0 h
        MUNLOCK s0
e:
        RET
f:
        LDI w3 1
        LDI w3 2
        JMP n
