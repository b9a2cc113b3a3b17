routine count public budget 9
        SETK k2 3
again:
        LOOP k2 again
        SETK k1 2
more:
        LOOP k1 more
        RET
