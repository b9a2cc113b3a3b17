routine few budget 1
        in s0=mem p0=s0:4
        out s0=mem
        RET
routine main public budget 9
        MNEW s0 w0 e
        LDI w1 8
        LALLOC s0 w2 w1 u
        DEREF s0 p0 w2 8 u
        LALLOC s0 w3 w1 u
        CALL few
u:      MUNLOCK s0
e:      RET
