; in no run k2 goes round behind SETK k2 0; but steps would have to be found for that way, and it is set anew there
routine turns public budget 99
        SETK k1 2
        SETK k2 2
        SETK k3 2
a:      LOOP k3 c
        SETK k2 1
        LOOP k1 a
        SETK k2 0
c:      LOOP k2 a
        RET
