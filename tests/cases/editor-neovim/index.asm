routine pick budget 9
        in s0=mem p0=s0:8
        out s0=mem
        LDXB w1 p0 w0
        OUT w1 x
x:      RET
