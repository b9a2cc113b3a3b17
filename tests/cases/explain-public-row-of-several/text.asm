routine a public budget 9
        in s0=vm@! s1=vm@! s2=vm@ s0#s1 s0#s2 p0=s0:1 p1=s0:2
        out s0=vm@! s1=vm@! s2=vm@ s0#s1 p0=s0:1 p1=s0:1
        RET
