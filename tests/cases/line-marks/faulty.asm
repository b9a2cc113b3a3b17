# 0 "f.asm"
# 0 "<built-in>"
# 0 "<command-line>"
# 1 "/usr/include/stdc-predef.h" 1 3 4
# 0 "<command-line>" 2
# 1 "f.asm"
# 1 "pair.h" 1
# 2 "f.asm" 2
routine f public budget 9
        LDI w1 0
# 1 "body.asm" 1
twice:
        ADD w0 w0 w0
        RTE
# 5 "f.asm" 2
        OUT w0 nd
twice:  RET
