# 1 "apart.asm.in"
routine f public budget 9
        BEQ w0 w1 x
# 1 "lock.asm" 1
        MNEW s0 w0 x
# 3 "apart.asm.in" 2
x:      RET
