; What is saved comes back.
routine a public budget 40
    LDI w1 5
    VNEW s0 w0 w1 e
    VUNLOCK s0
    VSAVE e
    VFREE w0 e
    LDI w2 0
    VFIND w3 w2 w1 e
    OUT w3 e
    VREVERT e
    VFIND w3 w2 w1 e
    OUT w3 e
    VUID w4 w3 e
    OUT w4 e
e:  RET
