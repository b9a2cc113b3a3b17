routine main public budget 40
        MNEW s0 w0 e
        LDI w1 8
        LALLOC s0 w2 w1 u
        DEREF s0 p0 w2 8 u
        BEQ w0 w1 keep
        LALLOC s0 w3 w1 u
        JMP both
keep:
        LDI w4 1
both:
        LDW w5 p0 0
u:
        MUNLOCK s0
e:
        RET
