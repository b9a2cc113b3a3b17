; least budget 2108
; sums a 20 x 20 matrix of bytes: row start w2, kept in bounds at the end of each outer turn
routine sum public budget BUDGET
        MLOCK s0 w0 e
        DEREF s0 p0 w1 400 u
        LDI w2 0
        LDI w5 20
        LDI w6 1
        SETK k1 19
o:      LDI w3 0
        SETK k0 19
i:      CHK w3 19 next
        ADD w4 w2 w3
        LDXB w7 p0 w4
        ADD w3 w3 w6
        LOOP k0 i
next:   ADD w2 w2 w5
        CHK w2 380 u
        LOOP k1 o
u:      MUNLOCK s0
e:      RET
