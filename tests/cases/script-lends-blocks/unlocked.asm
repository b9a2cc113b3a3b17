routine peek public budget 40
        in s0=vm@
        out s0=vm@
        LDI w1 16
        DEREF s0 p0 w1 2 e
        LDW w2 p0 0
        OUT w2 e
e:      VUNLOCK s0
        RET
