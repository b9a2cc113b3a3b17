routine main public budget 40
        MNEW s0 w0 e
        LDI w1 8
        LALLOC s0 w2 w1 u
        DEREF s0 p0 w2 8 u
        JMP m
r:      LDW w3 p0 0
u:      MUNLOCK s0
e:      RET
m:      MOVP p0 p1
        JMP r
