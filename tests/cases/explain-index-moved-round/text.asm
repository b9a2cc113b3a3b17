routine sum budget 99
        in s0=mem p0=s0:8
        out s0=mem p0=s0:8
        LDI w2 0
        LDI w5 1
        SETK k0 6
a:      LDXB w4 p0 w2
        ADD w2 w2 w5
        LOOP k0 a
        RET
