; A routine for each rule of the verifier that a text can break (v2 also breaks V8). docs/ERRORS.md has the cures.
routine v1 budget 9
        JMP other
routine v2 budget 9
        DEREF s0 p0 w1 4 x2
        RET
x2:     RET
routine v3 public budget 9
        in s0=mem
        MUNLOCK s0
other:  RET
routine v4 budget 9
        in s0=mem p0=s0:8
        LFREE s0 w0 x4
        STW w0 p0 0
x4:     MUNLOCK s0
        RET
routine v5 budget 9
        in s0=mem p0=s0:8
        LDXB w1 p0 w0
        MUNLOCK s0
        RET
routine v6 budget 9
        in s0=vm p0=s0:2
        STW w0 p0 0
        VUNLOCK s0
        RET
routine v7 budget 9
        in s0=mem
        MLOCK s0 w0 x7
x7:     MUNLOCK s0
        RET
routine v8 budget 9
        MUNLOCK s0
        RET
routine v9 budget 9
        in s0=vm
        VUPDATE x9
x9:     VUNLOCK s0
        RET
routine v10 budget 29
        CALL v9
        RET
routine v11 budget 9
        MLOCK s0 w0 x11
        RET
x11:    RET
routine v12 budget 9
        MLOCK s0 w0 x12
        JMP u12
        MUNLOCK s0
u12:    MUNLOCK s0
x12:    RET
routine v14 budget 1
        LDI w0 1
        RET
