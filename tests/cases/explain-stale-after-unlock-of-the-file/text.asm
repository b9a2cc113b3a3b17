routine vm public budget 20
        VLOCK s0 w0 e
        DEREF s0 p0 w1 2 u
        VUNLOCK s0
        LDB w1 p0 0
        RET
u:      VUNLOCK s0
e:      RET
routine db public budget 20
        ILOCK s0 p0 w0 w1 2 f
        IUNLOCK s0
        LDB w1 p0 0
f:      RET
