routine few budget 4294967294
        RET
routine main public budget 90
        CALL few
        RET
