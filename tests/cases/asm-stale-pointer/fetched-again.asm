routine main public budget 40
        MNEW s0 w0 e
        LDI w1 8
        LALLOC s0 w2 w1 u
        DEREF s0 p0 w2 8 u
        LALLOC s0 w3 w1 u
        DEREF s0 p0 w2 8 u
        LDW w4 p0 0
        OUT w4 u
u:
        MUNLOCK s0
e:
        RET
