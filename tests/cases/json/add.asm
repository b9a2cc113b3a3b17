routine add public budget 3
        ADD w0 w0 w1
        OUT w0 end
end:    RET
routine lent public budget 1
in s0=vm@
out s0=vm@
        RET
