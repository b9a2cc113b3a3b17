routine write budget 9
in s2=vm p0=s2:4
out s2=vm
        STW w0 p0 2
        RET
