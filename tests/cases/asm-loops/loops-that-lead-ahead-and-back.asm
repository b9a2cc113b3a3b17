; least budget 30
; LOOPs of three counters that lead ahead and back, one of them set where its loop goes round
routine main public budget BUDGET
        SETK k0 4
        SETK k1 2
        SETK k2 1
l0:     LOOP k2 l9
l1:     LOOP k0 l12
l2:     ADD w0 w1 w2
l3:     LOOP k1 l8
l4:     LOOP k1 l6
l5:     JMP l11
l6:     JMP l9
l7:     BEQ w0 w1 l9
l8:     ADD w0 w1 w2
l9:     SETK k1 1
l10:    BEQ w0 w1 l12
l11:    BLT w0 w1 l12
l12:    LOOP k1 l2
le:     RET
