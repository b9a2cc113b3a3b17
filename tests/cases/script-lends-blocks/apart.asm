routine two public budget 40
        in s0=vm@ s1=vm@ s0#s1
        out s0=vm@ s1=vm@
        VDIRTY s0
        LDI w1 16
        DEREF s1 p1 w1 2 e
        LDI w2 4
        LALLOC s0 w3 w2 e
        LDW w4 p1 0
e:      RET
