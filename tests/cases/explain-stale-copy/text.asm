routine main public budget 40
        MNEW s0 w0 e
        LDI w1 8
        LALLOC s0 w2 w1 u
        DEREF s0 p0 w2 8 u
        LALLOC s0 w3 w1 u
        DEREF s0 p1 w3 8 u
        LFREE s0 w2 u
        COPY p0 p1 4
u:
        MUNLOCK s0
e:
        RET
