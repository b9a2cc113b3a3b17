routine a public budget 30
        LDI w0 16
        DEREF s0 p0 w0 8 e
        LDI w1 5
        MUNLOCK s1
        DEREF s1 p1 w0 4 e
        LDI w3 1
        LDI w3 2
e:      RET
