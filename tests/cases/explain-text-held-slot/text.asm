routine main public budget 9
        MNEW s3 w0 e
        MLOCK s3 w1 u
u:      MUNLOCK s3
e:      RET
