routine main public budget 9
        MNEW s1 w0 e
        LDI w1 8
        RET
e:      RET
