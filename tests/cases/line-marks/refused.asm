; from two files
routine f public budget 9
        LDI w0 1
# 7 "short.asm"
routine g public budget 2
        LDI w0 1
        LDI w0 2
        CALL f
        RET
