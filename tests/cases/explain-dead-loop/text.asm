routine main public budget 9
        JMP e
d:      ADD w0 w0 w1
        LOOP k0 d
        MOV w2 w1
e:      RET
