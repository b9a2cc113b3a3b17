routine keep budget 9
        in s1=vm s2=db
        out s1=vm! s2=db!
        RET
