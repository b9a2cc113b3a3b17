routine add public budget 4294967296
        OUT w0 end
end:    RET
