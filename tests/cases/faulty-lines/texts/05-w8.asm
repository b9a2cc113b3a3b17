routine add public budget 3
        LDI w8 5
        OUT w0 end
end:    RET
