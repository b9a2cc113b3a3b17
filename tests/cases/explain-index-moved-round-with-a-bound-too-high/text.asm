routine fill public budget 60
        MNEW s0 w0 e
        LDI w1 16
        LALLOC s0 w2 w1 u
        DEREF s0 p0 w2 16 u
        SETK k0 7
        LDI w1 0
        LDI w2 2
a:      CHK w1 15 u
        STXW w0 p0 w1
        ADD w1 w1 w2
        LOOP k0 a
u:      MUNLOCK s0
e:      RET
