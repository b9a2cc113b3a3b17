routine main public budget 9
        in s0=vm@ s3=vm@!
        out s0=vm@ s3=vm@
        RET
