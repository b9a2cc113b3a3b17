routine few budget 1
        in s0=mem
        out s0=mem
        RET
routine main public budget 70
        MLOCK s0 w0 e
        DEREF s0 p0 w1 8 u
        SETK k0 9
h:      LDW w4 p0 0
        BLT w4 w5 f
        CALL few
f:      LOOP k0 h
u:      MUNLOCK s0
e:      RET
