routine main budget 40
in s0=vm
out s0=vm
        RET
        VUPDATE u
u:      RET
