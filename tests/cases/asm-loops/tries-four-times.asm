; least budget 13
routine main public budget BUDGET
        MNEW s0 w0 e
        LDI w1 600
        SETK k0 3
again:
        LALLOC s0 w2 w1 x
        JMP u
x:
        LOOP k0 again
u:
        MUNLOCK s0
e:
        RET
