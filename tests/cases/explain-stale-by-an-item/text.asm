routine main public budget 40
        ILOCK s1 p2 w0 w1 4 e
        INEW w2 w5 w3 u
        LDW w4 p2 0
u:      IUNLOCK s1
e:      RET
