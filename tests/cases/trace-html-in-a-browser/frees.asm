; A chunk that is freed, a block that is unlocked, and blocks of the file.

routine main public budget 60
        MNEW s0 w0 e
        LDI w1 8
        LALLOC s0 w2 w1 a
        LALLOC s0 w3 w1 a
        DEREF s0 p0 w2 8 a
        DEREF s0 p1 w3 8 a
        LFREE s0 w2 a
        DEREF s0 p1 w3 8 a
        VNEW s1 w4 w7 a
        VDIRTY s1
        LDI w5 20
        LALLOC s1 w6 w5 b
        LALLOC s1 w6 w5 b
        DEREF s1 p2 w6 20 b
        STW w5 p2 3
        VUNLOCK s1
        MNEW s1 w4 a
        LALLOC s1 w6 w5 c
        OUT w6 c
c:
        MUNLOCK s1
        JMP a
b:
        VUNLOCK s1
a:
        MUNLOCK s0
e:
        RET
