routine main public budget 40
        MNEW s0 w0 e
        LDI w1 8
        LALLOC s0 w2 w1 u
        DEREF s0 p0 w2 8 u
        SETK k0 3
a:
        LDW w3 p0 0
        LFREE s0 w4 u
        LDI w4 5
        LOOP k0 a
u:
        MUNLOCK s0
e:
        RET
