routine hidden budget 1
        RET
routine add public budget 3
        ADD w0 w0 w1
        OUT w0 end
end:    RET
routine small public budget 1
in w0<=9
        RET
routine peek public budget 1
in s0=vm@
out s0=vm@
        RET
routine none public budget 1
        RET
