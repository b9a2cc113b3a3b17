; least budget 523
; finds the index of the first byte that is w2 among 100, then reads it five times
routine main public budget BUDGET
        MLOCK s0 w0 e
        DEREF s0 p0 w1 100 u
        LDI w3 0
        LDI w5 1
        SETK k0 99
f:      LDXB w4 p0 w3
        BEQ w4 w2 found
        ADD w3 w3 w5
        CHK w3 99 u
        LOOP k0 f
        JMP u
found:  SETK k1 5
g:      LDXB w4 p0 w3
        OUT w4 u
        LOOP k1 g
u:      MUNLOCK s0
e:      RET
