routine main public budget 40
        MNEW s0 w0 e
        LDI w1 8
        LALLOC s0 w2 w1 u
        DEREF s0 p0 w2 8 u
        LDI w4 7
        LDCW w3 p0 w4 x
        OUT w3 u
        JMP u
x:
        OUT w7 u
u:
        MUNLOCK s0
e:
        RET
