routine a public budget 9
        SETK c0 5
        LOOP w0 x
x:      RET
