routine any budget 9
        in s0=mem p0=s0:8
        out s0=mem
        LDXW w0 p0 w7
        RET
