routine few budget 9
        SETK k0 2
        RET
routine main public budget 99
        SETK k0 2
        JMP b
a:      JMP b
c:      CALL few
        LOOP k0 d
        RET
b:      JMP c
d:      JMP a
