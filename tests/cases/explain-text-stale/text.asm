routine few budget 1
        in s0=mem
        out s0=mem
        RET

routine main public budget 11
        MNEW s0 w0 e
        LDI w1 4
        LALLOC s0 w2 w1 u
        DEREF s0 p0 w2 4 u
        BEQ w0 w1 v
        CALL few
v:      LDB w3 p0 1
u:      MUNLOCK s0
e:      RET
