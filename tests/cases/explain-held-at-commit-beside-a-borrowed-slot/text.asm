routine main budget 9
        in s0=vm@ s1=db
        out s0=vm@ s1=db
        VUPDATE e
e:      RET
