routine a budget 50
        JMP m
l:      LDB w0 p0 0
        RET
m:      CALL b
        JMP l
routine b budget 3
        out p0=s1:4
        RET
