routine say budget 1
        in s0=mem p0=s0:8
        out s0=mem p0=s0:8
        RET
routine read budget 9
        in s0=mem p0=s0:8
        out s0=mem p0=s0:8
        CHK w2 5 e
        CALL say
        LDXB w4 p0 w2
e:      RET
