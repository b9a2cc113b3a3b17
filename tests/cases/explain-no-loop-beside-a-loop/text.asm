routine a public budget 90
a:      ADD w0 w0 w1
        BEQ w0 w1 b
        LOOP k0 x
b:      JMP a
x:      RET
