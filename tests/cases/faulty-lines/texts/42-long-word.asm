routine add public budget 3
        xxxxxxxxxxxxxxxxxxxxxxxxxxxxxxxxxxxxxxxxx
        OUT w0 end
end:    RET
