routine add public budget 3
in p0=s0
        OUT w0 end
end:    RET
