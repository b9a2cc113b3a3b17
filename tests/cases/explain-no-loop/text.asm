routine few budget 1
        RET
routine main public budget 9
a:      LDI w0 1
        OUT w0 x
        JMP a
x:      RET
