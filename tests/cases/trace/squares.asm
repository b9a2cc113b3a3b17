routine squares public budget 54
        in w0<=9
        LDI w1 1
        SETKW k0 w0
        LDI w2 0
a:      ADD w2 w2 w1
        OUT w2 x
        LDI w3 2
        ADD w1 w1 w3
        LOOP k0 a
x:      RET
