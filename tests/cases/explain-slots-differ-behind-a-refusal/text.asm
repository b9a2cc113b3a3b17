routine keep public budget 9
        MNEW s0 w1 u
u:      MUNLOCK s0
        RET
