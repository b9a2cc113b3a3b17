; Makes a block with the word w0 in its first chunk, whose handle is 16.
routine put public budget 40
        LDI w1 5
        VNEW s0 w2 w1 put_end
        LDI w1 2
        LALLOC s0 w3 w1 unlock
        DEREF s0 p0 w3 2 unlock
        STW w0 p0 0
unlock:
        VUNLOCK s0
put_end:
        RET
routine peek public budget 40
        in s0=vm@
        out s0=vm@
        LDI w1 16
        DEREF s0 p0 w1 2 peek_end
        LDW w2 p0 0
        OUT w2 peek_end
peek_end:
        RET
routine poke public budget 40
        in s0=vm@
        out s0=vm@
        VDIRTY s0
        LDI w1 16
        DEREF s0 p0 w1 2 poke_end
        STW w0 p0 0
poke_end:
        RET
routine two public budget 40
        in s0=vm@ s1=vm@
        out s0=vm@ s1=vm@
        VDIRTY s0
        LDI w1 16
        DEREF s1 p1 w1 2 two_end
        LDI w2 4
        SNE s0 s1 two_end
        LALLOC s0 w3 w2 two_end
        LDW w4 p1 0
two_end:
        RET
