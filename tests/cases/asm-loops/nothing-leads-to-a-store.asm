; least budget 7
routine main public budget BUDGET
        MNEW s0 w0 e
        LDI w1 8
        LALLOC s0 w2 w1 u
        DEREF s0 p0 w2 8 u
        JMP u                 ; for now
        LDI w3 77
        STW w3 p0 0
u:      MUNLOCK s0
e:      RET
