routine main public budget 9
        JMP c
a:      JMP e
c:      JMP a
e:      LDI w0 1
        BEQ w0 w1 e
        RET
