routine main public budget 40
in w0<=9
        MLOCK s0 w0 e
        MLOCK s1 w1 u
        LDI w3 8
        DEREF s1 p1 w2 8 v
        LALLOC s0 w4 w3 v
        LDW w5 p1 0
v:
        MUNLOCK s1
u:
        MUNLOCK s0
e:
        RET
