; The counter is set between the loop's label and its LOOP, but on a way that leaves the loop: what passes the limit is the call.
routine few budget 4294967294
        RET
routine main public budget 90
        SETK k0 3
a:      BLT w0 w2 b
        SETK k0 1
        JMP c
b:      LOOP k0 a
c:      CALL few
        RET
