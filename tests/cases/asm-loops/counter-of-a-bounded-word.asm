; least budget 15
routine main public budget BUDGET
        AND w3 w4 5
        SETKW k0 w3
h:
        ADD w1 w1 w2
        LOOP k0 h
        RET
