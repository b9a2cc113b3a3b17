; least budget 4429
routine main public budget BUDGET
        MLOCK s0 w0 e
        DEREF s0 p0 w1 100 u
        LDI w3 0
        LDI w5 1
        SETK k1 200
o:      SETK k0 5
i:      LDXB w4 p0 w3
        ADD w6 w6 w4
        LOOP k0 i
        ADD w3 w3 w5
        CHK w3 99 u
        LOOP k1 o
u:      MUNLOCK s0
e:      RET
