routine both public budget 9
a:      LOOP k0 a
b:      LOOP k2 b
        RET
