; The same, and it is not fetched again.
routine a public budget 40
    GNEW w0 e
    LDI w1 4
    INEW w2 w0 w1 e
    INEW w3 w0 w1 e
    ILOCK s0 p0 w0 w2 4 e
    ILOCK s1 p1 w0 w3 4 x
    INEW w4 w0 w1 u
    LDW w5 p0 0
u:  IUNLOCK s1
x:  IUNLOCK s0
    GFREE w0 e
    LDI w5 1
    OUT w5 e
e:  RET
