routine add public budget 3
in s0=mem p0=s0:65536
        OUT w0 end
end:    RET
