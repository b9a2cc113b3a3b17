routine main public budget 9
        JMP far
routine other public budget 9
far:    RET
