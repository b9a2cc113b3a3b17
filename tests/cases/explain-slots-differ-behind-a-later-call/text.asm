routine main public budget 20
        LDI w1 3
        MNEW s0 w0 e
        LALLOC s0 w2 w1 u
        CALL later
        OUT w1 u
u:      MUNLOCK s0
e:      RET
routine later budget 4
        RET
