routine add public budget 3
        LDI W0 5
        OUT w0 end
end:    RET
