routine main public budget 90
        JMP e
        BEQ w0 w1 x
        MNEW s0 w2 y
x:      LDI w1 1
y:      RET
e:      RET
