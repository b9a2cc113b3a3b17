routine fetch budget 9
        in s0=mem
        out s0=mem p0=s0:4
        DEREF s0 p0 w0 4 x
x:      RET
routine few budget 2
        in s0=mem
        out s0=mem
        RET
routine past budget 9
        in s0=mem p0=s0:4
        out s0=mem p0=s0:4
        CALL few
        RET
