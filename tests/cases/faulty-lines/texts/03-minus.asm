routine add public budget 3
        LDI w0 -1
        OUT w0 end
end:    RET
