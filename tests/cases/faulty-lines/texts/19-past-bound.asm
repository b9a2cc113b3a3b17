routine add public budget 3
        LDI w0 65536
        OUT w0 end
end:    RET
