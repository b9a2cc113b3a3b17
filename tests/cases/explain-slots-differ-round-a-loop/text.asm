routine keep public budget 9
        SETK k0 3
a:      MNEW s1 w1 e
        LOOP k0 a
        MUNLOCK s1
e:      RET
