routine main public budget 9
        CALL later
        RET
routine later budget 2
        RET
