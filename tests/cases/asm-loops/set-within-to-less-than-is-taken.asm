; least budget 17
routine main public budget BUDGET
        SETK k0 4
own:    LOOP k0 own
        BEQ w0 w1 last
        BEQ w0 w1 more
head:   LOOP k0 less
        JMP last
more:   SETK k0 2
less:   SETK k0 1
        ADD w0 w1 w2
last:   LOOP k0 head
        RET
