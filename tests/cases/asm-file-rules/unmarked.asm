; A block of the file is written that is not marked.
routine a public budget 40
    VGETMAP w0
    VLOCK s0 w0 e
    LDI w1 16
    DEREF s0 p0 w1 2 u
    STW w2 p0 0
    OUT w2 u
u:  VUNLOCK s0
e:  RET
