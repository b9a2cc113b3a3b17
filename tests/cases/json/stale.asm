routine f public budget 9
        MNEW s0 w0 out
        LDI w1 3
        LALLOC s0 w2 w1 undo
        DEREF s0 p0 w2 3 undo
        LFREE s0 w2 undo
        LDB w3 p0 0
        OUT w3 undo
undo:   MUNLOCK s0
out:    RET
