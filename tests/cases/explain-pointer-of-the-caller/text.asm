routine third budget 9
in s0=mem
out s0=mem
        PLEN w0 p1
        RET
