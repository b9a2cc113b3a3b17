one:
routine two budget 1
three:
routine four budget 1
        RET
