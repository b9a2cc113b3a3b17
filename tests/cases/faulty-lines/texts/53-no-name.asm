routine a public budget 9
        JMP 9x
        CALL a-b
        JMP a,b
x:      RET
