routine few budget 1
        in s0=mem s1=mem
        out s0=mem s1=mem
        RET
routine two budget 1
        in s0=mem s1=mem s0#s1 p0=s0:4
        out s0=mem s1=mem
        RET
routine both budget 9
        in s0=mem s1=mem s0#s1 p0=s0:4
        out s0=mem s1=mem s0#s1
        CALL few
        CALL two
        RET
