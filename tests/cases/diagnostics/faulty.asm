routine f public budget 9
        ldi w0 5
        LDI w0, 5
a:      LDI w0 1
a:      LDI w0 2
