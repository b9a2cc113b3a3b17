; Three words are put into a chunk of 40 bytes: at its front, within its second line, and at its end.
routine put public budget 40
    LDI w1 5
    VNEW s0 w2 w1 e
    LDI w3 40
    LALLOC s0 w4 w3 u
    DEREF s0 p0 w4 40 u
    LDI w5 16706
    STW w5 p0 0
    LDI w5 32639
    STW w5 p0 20
    LDI w5 8318
    STW w5 p0 38
u:  VUNLOCK s0
e:  RET
