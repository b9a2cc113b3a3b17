routine main budget 9
in s3=vm
        LDI w0 1
        RET
