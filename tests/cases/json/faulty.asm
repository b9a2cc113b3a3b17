routine f public budget 9
        ldi w0 5
        LDI w0 70000
a:      RET
a:      RET
