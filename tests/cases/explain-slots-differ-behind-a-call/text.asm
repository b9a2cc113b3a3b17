; few does not say that s0 is held
routine few budget 1
        RET
routine keep public budget 9
        MNEW s0 w1 e
        LDI w2 8
        LALLOC s0 w3 w2 u
        CALL few
        LDI w2 9
u:      MUNLOCK s0
e:      RET
