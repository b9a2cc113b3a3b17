routine one budget 1
in w8<=1
        RET
routine two budget 1
in s4=mem
        RET
routine three budget 1
in p0=s4:8
        RET
routine four budget 1
in s0#s4
        RET
routine five budget 1
in w10<=1 p4=s0:8
        RET
routine six budget 1
in p4=s0:8
        RET
