routine one budget 9
        in s0=mem p0=s0:1 p1=s0:8
        out s0=mem
        LDW w1 p0 0
        COPY p1 p0 4
        COPY p0 p1 4
        LDXW w2 p0 w1
        STXW w2 p0 w1
        RET
