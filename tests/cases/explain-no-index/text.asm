routine none budget 9
in w3<=0 s0=mem p0=s0:1
out s0=mem
        LDXW w0 p0 w3
        RET
