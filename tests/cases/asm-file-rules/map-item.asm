; The map item goes with its group.
routine a public budget 40
    GNEW w0 e
    LDI w1 4
    INEW w2 w0 w1 e
    ISETMAP w0 w2 e
    IGETMAP w3 w4
    OUT w3 e
    OUT w4 e
    GFREE w0 e
    IGETMAP w3 w4
    OUT w3 e
e:  RET
