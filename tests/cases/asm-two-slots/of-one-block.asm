routine main public budget 40
        MNEW s0 w0 e
        MLOCK s1 w0 x
        LDI w1 8
        LALLOC s0 w2 w1 u
        DEREF s1 p1 w2 8 u
        LALLOC s0 w3 w1 u
        LDW w4 p1 0
u:
        MUNLOCK s1
x:
        MUNLOCK s0
e:
        RET
