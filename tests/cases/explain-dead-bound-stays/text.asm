routine b public budget 12
        MNEW s0 w1 e
        LDI w2 8
        LALLOC s0 w3 w2 u
        DEREF s0 p0 w3 8 u
        LDI w0 5
        JMP m
        LDI w0 500
m:      LDXB w4 p0 w0
u:      MUNLOCK s0
e:      RET
