; free unlocks s0: that it is held is not to be said in its out line
routine free budget 2
        in s0=mem
        MUNLOCK s0
        RET
routine keep public budget 9
        MNEW s0 w1 e
        LDI w2 8
        LALLOC s0 w3 w2 u
        CALL free
u:      RET
e:      RET
