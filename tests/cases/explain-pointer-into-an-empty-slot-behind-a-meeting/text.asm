routine a budget 50
        in s1=mem p3=s2:4
        out s1=mem
        BEQ w0 w1 l
        DEREF s1 p3 w2 8 u
l:      LDB w0 p3 0
u:      RET
