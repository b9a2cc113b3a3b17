routine inc budget 9
        out w1<=5
        LDI w1 5
        RET
routine lost public budget 1
        MNEW s1 w0 e
        CALL inc
        MUNLOCK s1
        LDI w2 8
        LALLOC s1 w3 w2 e
e:      RET
