routine main public budget 9
        JMP e
        LDI w1 2
        LDW w0 p0 0
e:      RET
