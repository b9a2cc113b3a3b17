routine a budget 9
        in s0=db
        MUNLOCK s0
        RET
routine b budget 9
        in s0=mem
        IUNLOCK s0
        RET
routine c budget 9
        in s0=db
        out s0=db
        VDIRTY s0
        RET
routine d budget 9
        in s0=mem
        out s0=mem
        VDIRTY s0
        RET
routine e budget 9
        VDIRTY s0
        RET
routine f budget 9
        IUNLOCK s0
        RET
routine g budget 9
        in s0=vm
        IUNLOCK s0
        RET
routine h budget 9
        in s0=db
        VUNLOCK s0
        RET
