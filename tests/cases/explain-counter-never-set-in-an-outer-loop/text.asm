routine name public budget 99
        SETK k0 9
next:   BEQ w4 w0 found
        LOOP k0 next
        JMP named
found:  OUT w1 letter
        SETK k1 4
letter: LOOP k1 letter
named:  RET
