routine few budget 9
        in s0=mem p0=s0:2
        out s0=mem p0=s0:1
        RET
routine main budget 40
        in s0=mem p0=s0:4
        out s0=mem
        CALL few
        LDW w1 p0 2
        RET
routine next budget 40
        in s0=mem p0=s0:4
        out s0=mem
        CALL few
        LDXW w1 p0 w2
        RET
