routine main public budget 40
        MLOCK s0 w0 e
        LDI w1 8
        LALLOC s0 w2 w1 u
        DEREF s0 p0 w2 8 u
        STW w0 p0 0
u:      LDW w3 p0 0
        MUNLOCK s0
e:      RET
