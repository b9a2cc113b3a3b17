routine main public budget 40
        LDW w4 p0 0
        RET
