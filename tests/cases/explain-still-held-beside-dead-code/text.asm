routine main public budget 40
        JMP a
        MLOCK s0 w0 e
        JMP b
a:      MLOCK s0 w1 e
b:      RET
e:      RET
