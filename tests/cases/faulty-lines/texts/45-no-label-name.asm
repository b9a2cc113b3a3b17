routine a public budget 1
8 RET
= RET
        RET
