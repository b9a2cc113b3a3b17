routine add public budget 3
        LDI w0 0x10
        OUT w0 end
end:    RET
