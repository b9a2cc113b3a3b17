routine poke public budget 40
        in s0=vm@
        out s0=vm@
        LDI w1 16
        DEREF s0 p0 w1 2 e
        STW w0 p0 0
e:      RET
