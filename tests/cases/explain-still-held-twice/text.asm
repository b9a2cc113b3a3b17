routine main budget 20
out w3<=4
        MNEW s0 w0 e
        MNEW s2 w1 u
        RET
u:
        MUNLOCK s0
        MNEW s0 w0 e
        MUNLOCK s0
e:
        LDI w3 1
        RET
