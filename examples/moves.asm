; Block 1 grows past block 2, so it moves, and p0 is fetched again.

routine main public budget 16
        MNEW s0 w0 e
        LDI w1 8
        LALLOC s0 w2 w1 a
        DEREF s0 p0 w2 8 a
        LDI w3 77
        STW w3 p0 0
        MNEW s1 w4 a
        LALLOC s1 w5 w1 b
        LDI w5 200
        LALLOC s0 w6 w5 b       ; block 1 grows: p0 is stale
        DEREF s0 p0 w2 8 b
        LDW w4 p0 0
        OUT w4 b
b:
        MUNLOCK s1
a:
        MUNLOCK s0
e:
        RET
