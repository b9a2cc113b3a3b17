routine main public budget 40
        MLOCK s0 w0 e
        BEQ w0 w1 a
        DEREF s0 p0 w2 8 u
        JMP m
a:      LALLOC s0 w3 w4 u
m:      LDW w5 p0 0
u:      MUNLOCK s0
e:      RET
