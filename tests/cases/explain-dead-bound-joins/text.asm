routine a public budget 9
        LDI w3 5
        JMP m
        LDI w3 500
m:      OUT w3 e
e:      RET
