routine main public budget 9
a:      MNEW s0 w1 e
        LOOP k0 a
        MUNLOCK s0
e:      RET
