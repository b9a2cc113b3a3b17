; least budget 172
routine main public budget BUDGET
        MNEW s0 w1 e
        LDI w0 0
        LALLOC s0 w2 w3 u
        DEREF s0 p0 w2 64 u
        AND w1 w1 1
        SETK k0 40
h:
        LDXB w4 p0 w0
        ADD w0 w0 w1
        AND w0 w0 63
        LOOP k0 h
u:
        MUNLOCK s0
e:
        RET
