routine main public budget 9
        LDI w0 1
        JMP e
        LDI w1 2
        MOV w2 w1
e:      RET
