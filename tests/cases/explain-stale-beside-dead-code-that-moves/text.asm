routine main public budget 40
        MLOCK s0 w0 e
        DEREF s0 p0 w1 8 u
        BEQ w0 w1 a
        JMP n
        LALLOC s0 w4 w3 u
        JMP n
a:      LALLOC s0 w2 w1 u
n:      LDW w3 p0 0
u:      MUNLOCK s0
e:      RET
