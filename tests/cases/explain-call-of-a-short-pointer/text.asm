routine few budget 1
        in s0=mem p0=s0:4
        out s0=mem
        RET
routine main public budget 9
        MLOCK s0 w0 e
        DEREF s0 p0 w1 2 u
        CALL few
u:      MUNLOCK s0
e:      RET
