routine add public budget 3
        SHR w0 w0 16
        OUT w0 end
end:    RET
