routine main public budget 40
        MNEW s0 w0 e
        LDI w1 0
        LALLOC s0 w2 w1 u
        DEREF s0 p0 w2 0 u
        PLEN w3 p0
        OUT w3 u
u:
        MUNLOCK s0
e:
        RET
