routine compare budget 9
in s0=mem s1=db!
out s0=mem s1=db!
        SNE s0 s1 e
e:
        RET
