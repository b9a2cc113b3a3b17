        LDI w0 5
routine add public budget 3
        OUT w0 end
end:    RET
