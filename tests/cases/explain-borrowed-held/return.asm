routine main budget 9
        in s0=vm@ s1=vm
        RET
