routine main public budget 7
        MLOCK s0 w0 e
        DEREF s0 p0 w1 8 u
        DEREF s0 p1 w2 8 x
x:      COPY p0 p1 4
u:      MUNLOCK s0
e:      RET
