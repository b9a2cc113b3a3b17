routine 9a public budget 9
        RET
