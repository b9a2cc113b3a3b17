routine add public budget 3
in s0=vmm
        OUT w0 end
end:    RET
