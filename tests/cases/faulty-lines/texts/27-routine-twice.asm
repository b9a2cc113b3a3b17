routine add public budget 3
        OUT w0 end
end:    RET
routine add budget 3
        RET
