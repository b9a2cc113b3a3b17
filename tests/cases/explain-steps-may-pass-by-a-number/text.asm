; a loop within a loop, whose body stands out of line
routine main public budget 4294967295
        SETK k0 65535
        JMP foot
head:   JMP body
foot:   LOOP k0 head
        RET
body:   SETK k1 65535
inner:  ADD w0 w0 w1
        LOOP k1 inner
        JMP foot
