routine third budget 9
in w2<=6 s0=mem p1=s0:6
out s0=mem
        LDXW w0 p1 w2
        RET
