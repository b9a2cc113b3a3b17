routine f public budget ?
        LDI w0 1
        LDI w0 2
        OUT w0 end
end:    RET
