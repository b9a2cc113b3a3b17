routine add public budget 3
        RTE
        OUT w0 end
end:    RET
