routine few budget 9
        SETK k0 2
        RET
routine main public budget 99
        SETK k0 2
        CALL few
        JMP b
b:      LOOP k0 d
        RET
d:      JMP b
