#line 5 "unset.m4"
routine f public budget ?
x:      LOOP k0 x
        RET
