; 3,332 sums, each written into a chunk: 10,003 steps.
routine main public budget 10003
        MNEW s0 w0 e
        LDI w1 8
        LALLOC s0 w2 w1 u
        DEREF s0 p0 w2 8 u
        SETK k0 3331
again:
        ADD w3 w3 w1
        STW w3 p0 2
        LOOP k0 again
u:
        MUNLOCK s0
e:
        RET
