routine few budget 1
        RET

routine main public budget 9
        MNEW s0 w1 e
        LDI w2 8
        LALLOC s0 w3 w2 e
        MUNLOCK s0
e:      RET
