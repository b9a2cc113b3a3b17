routine inner budget 13
        MNEW s0 w0 e
        LDI w1 600
        SETK k0 3
again:
        LALLOC s0 w2 w1 x
        JMP u
x:
        LOOP k0 again
u:
        MUNLOCK s0
e:
        RET

routine tries public budget 16
        CALL inner
        OUT w7 t
t:
        RET

routine fill public budget 40
        MNEW s0 w0 f
        LDI w1 65000
        LALLOC s0 w2 w1 v
v:
        MUNLOCK s0
f:
        RET
