routine main public budget 2
        COPY p0 p0 4
        RET
