routine tight public budget 40
        MNEW s0 w0 e
        LDI w1 8
        LALLOC s0 w2 w1 u
        DEREF s0 p0 w2 8 u
        LDI w1 600
        LALLOC s0 w3 w1 x
        JMP u
x:
        DEREF s0 p0 w2 8 u
        LDW w4 p0 0
        OUT w7 u
u:
        MUNLOCK s0
e:
        RET

routine fill public budget 40
        MNEW s0 w0 f
        LDI w1 65000
        LALLOC s0 w2 w1 v
v:
        MUNLOCK s0
f:
        RET
