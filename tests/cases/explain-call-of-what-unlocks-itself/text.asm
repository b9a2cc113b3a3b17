routine away budget 9
        MUNLOCK s0
        RET
routine other budget 9
        in s0=mem
        MUNLOCK s0
        MNEW s0 w0 e
        MUNLOCK s0
e:      RET
routine db budget 9
        in s0=db! w1<=5
        RET
routine main budget 90
        in s0=mem
        CALL away
        RET
routine later budget 90
        in s0=mem
        out s0=mem
        CALL other
        RET
routine marks budget 90
        in s0=db
        out s0=db
        CALL db
        RET
