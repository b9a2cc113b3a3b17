; A chunk in a block that may move: 77 is written through a pointer, and read back.

routine main public budget 10
        MNEW s0 w0 e
        LDI w1 8
        LALLOC s0 w2 w1 u
        DEREF s0 p0 w2 8 u      ; p0 leads to at least 8 bytes
        LDI w3 77
        STW w3 p0 0
        LDW w4 p0 0
        OUT w4 u
u:
        MUNLOCK s0
e:
        RET
