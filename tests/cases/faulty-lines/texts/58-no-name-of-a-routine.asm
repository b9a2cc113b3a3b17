routine
        RET
