routine main public budget 70
        MLOCK s0 w0 e
        DEREF s0 p0 w1 8 u
        LDI w6 4
        SETK k0 9
h:      LDW w4 p0 0
        BLT w4 w5 f
        LALLOC s0 w2 w6 u
f:      LOOP k0 h
u:      MUNLOCK s0
e:      RET
