routine main public budget 40
        MLOCK s0 w0 e
        JMP m
        DEREF s0 p0 w1 8 u
        JMP n
m:      LDI w2 1
n:      LDW w3 p0 0
u:      MUNLOCK s0
e:      RET
