routine few budget 1
        in s0=vm
        out s0=vm
        RET
routine main public budget 20
        VLOCK s0 w0 e
        VDIRTY s0
        CALL few
        DEREF s0 p0 w1 2 u
        STW w0 p0 0
u:      VUNLOCK s0
e:      RET
