routine main budget 9
        in s0=mem
        out s0=mem
        LALLOC s0 w0 w1 u
        DEREF s0 p0 w0 4 v
u:      LDB w2 p0 0
v:      RET
