; least budget 592
; three loops in one another, with ways out of each
routine main public budget BUDGET
        ADD w0 w0 w1
        SETK k0 2
q1:     BEQ w0 w1 q2
        ADD w0 w0 w1
        BEQ w0 w1 q3
        LOOP k0 q1
        JMP q2
q3:     SETK k1 4
q4:     SETK k2 4
q6:     ADD w0 w0 w1
        ADD w0 w0 w1
        ADD w0 w0 w1
q8:     LOOP k2 q6
q7:     LOOP k1 q4
q5:     SETK k1 4
q9:     SETK k2 3
q11:    ADD w0 w0 w1
        ADD w0 w0 w1
        LOOP k2 q11
q12:    ADD w0 w0 w1
        BEQ w0 w1 q10
        LOOP k1 q9
q10:    LOOP k0 q1
q2:     ADD w0 w0 w1
        RET
