routine main public budget 90
        MLOCK s0 w0 e
        DEREF s0 p0 w1 8 u
        LDI w6 4
        SETK k0 9
h:      LDW w4 p0 0
        BEQ w4 w5 f
        BEQ w4 w6 n
        LALLOC s0 w2 w6 u
n:      ADD w7 w7 w4
f:      LOOP k0 h
u:      MUNLOCK s0
e:      RET
